/* The host's errno.h, with QNX's additions. */
#pragma GCC system_header
#include_next <errno.h>
#ifndef EOK
#define EOK 0
#endif
#ifndef ESRVRFAULT
#define ESRVRFAULT 312 /* no call here fails with it, but a server may reply with it */
#endif
