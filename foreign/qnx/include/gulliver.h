/* The order of bytes in numbers, and numbers at any address. */
#pragma GCC system_header
#ifndef BALSAEUCHRE_QNX_GULLIVER_H
#define BALSAEUCHRE_QNX_GULLIVER_H

#include <stdint.h>
#include <string.h>

#define ENDIAN_RET16(x) __builtin_bswap16((uint16_t)(x))
#define ENDIAN_RET32(x) __builtin_bswap32((uint32_t)(x))
#define ENDIAN_RET64(x) __builtin_bswap64((uint64_t)(x))
#define ENDIAN_SWAP16(at) ((void)(*(uint16_t *)(at) = ENDIAN_RET16(*(uint16_t *)(at))))
#define ENDIAN_SWAP32(at) ((void)(*(uint32_t *)(at) = ENDIAN_RET32(*(uint32_t *)(at))))
#define ENDIAN_SWAP64(at) ((void)(*(uint64_t *)(at) = ENDIAN_RET64(*(uint64_t *)(at))))

#if __BYTE_ORDER__ == __ORDER_LITTLE_ENDIAN__
#define __LITTLEENDIAN__ 1
#define ENDIAN_LE16(x) ((uint16_t)(x))
#define ENDIAN_LE32(x) ((uint32_t)(x))
#define ENDIAN_LE64(x) ((uint64_t)(x))
#define ENDIAN_BE16(x) ENDIAN_RET16(x)
#define ENDIAN_BE32(x) ENDIAN_RET32(x)
#define ENDIAN_BE64(x) ENDIAN_RET64(x)
#else
#define __BIGENDIAN__ 1
#define ENDIAN_LE16(x) ENDIAN_RET16(x)
#define ENDIAN_LE32(x) ENDIAN_RET32(x)
#define ENDIAN_LE64(x) ENDIAN_RET64(x)
#define ENDIAN_BE16(x) ((uint16_t)(x))
#define ENDIAN_BE32(x) ((uint32_t)(x))
#define ENDIAN_BE64(x) ((uint64_t)(x))
#endif

static inline uint16_t neutrino_get_16(const void *at) {
    uint16_t number;
    memcpy(&number, at, sizeof number);
    return number;
}

static inline uint32_t neutrino_get_32(const void *at) {
    uint32_t number;
    memcpy(&number, at, sizeof number);
    return number;
}

static inline uint64_t neutrino_get_64(const void *at) {
    uint64_t number;
    memcpy(&number, at, sizeof number);
    return number;
}

static inline void neutrino_put_16(void *at, uint16_t number) { memcpy(at, &number, sizeof number); }
static inline void neutrino_put_32(void *at, uint32_t number) { memcpy(at, &number, sizeof number); }
static inline void neutrino_put_64(void *at, uint64_t number) { memcpy(at, &number, sizeof number); }

#define UNALIGNED_RET16(at) neutrino_get_16(at)
#define UNALIGNED_RET32(at) neutrino_get_32(at)
#define UNALIGNED_RET64(at) neutrino_get_64(at)
#define UNALIGNED_PUT16(at, number) neutrino_put_16((at), (uint16_t)(number))
#define UNALIGNED_PUT32(at, number) neutrino_put_32((at), (uint32_t)(number))
#define UNALIGNED_PUT64(at, number) neutrino_put_64((at), (uint64_t)(number))

#endif
