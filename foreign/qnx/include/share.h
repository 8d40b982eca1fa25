/* The modes of sopen. sopen is missing, since the host shares each file: use open and flock. */
#pragma GCC system_header
#ifndef BALSAEUCHRE_QNX_SHARE_H
#define BALSAEUCHRE_QNX_SHARE_H

#include <sys/missing.h>

#define SH_COMPAT 0x00
#define SH_DENYRW 0x10
#define SH_DENYWR 0x20
#define SH_DENYRD 0x30
#define SH_DENYNO 0x40

#ifdef __cplusplus
extern "C" {
#endif

NEUTRINO_MISSING(sopen);
NEUTRINO_MISSING(sopenfd);

#ifdef __cplusplus
}
#endif

#endif
