/* The host's sys/types.h, with QNX's names of types. */
#pragma GCC system_header
#include_next <sys/types.h>
#ifndef BALSAEUCHRE_QNX_TYPES_H
#define BALSAEUCHRE_QNX_TYPES_H
#include <stdint.h>

typedef uint8_t _Uint8t;
typedef uint16_t _Uint16t;
typedef uint32_t _Uint32t;
typedef uint64_t _Uint64t;
typedef int8_t _Int8t;
typedef int16_t _Int16t;
typedef int32_t _Int32t;
typedef int64_t _Int64t;
typedef size_t _Sizet;
typedef ssize_t _Ssizet;
typedef uintptr_t _Uintptrt;
typedef intptr_t _Intptrt;
typedef unsigned char uchar_t;
typedef unsigned short ushort_t;
typedef unsigned uint_t;

#endif
