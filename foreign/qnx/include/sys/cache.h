/* Caches of devices are missing: there is no hardware. */
#pragma GCC system_header
#ifndef BALSAEUCHRE_QNX_CACHE_H
#define BALSAEUCHRE_QNX_CACHE_H

#include <sys/missing.h>

#ifdef __cplusplus
extern "C" {
#endif

NEUTRINO_MISSING(cache_fini);
NEUTRINO_MISSING(cache_init);

#ifdef __cplusplus
}
#endif

#endif
