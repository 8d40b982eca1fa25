/* Ports of hardware. A program of the host has none, so each of these functions is missing. */
#pragma GCC system_header
#ifndef BALSAEUCHRE_QNX_INOUT_H
#define BALSAEUCHRE_QNX_INOUT_H

#include <sys/missing.h>

#ifdef __cplusplus
extern "C" {
#endif

NEUTRINO_MISSING(in16);
NEUTRINO_MISSING(in16s);
NEUTRINO_MISSING(in32);
NEUTRINO_MISSING(in32s);
NEUTRINO_MISSING(in8);
NEUTRINO_MISSING(in8s);
NEUTRINO_MISSING(inbe16);
NEUTRINO_MISSING(inbe32);
NEUTRINO_MISSING(inle16);
NEUTRINO_MISSING(inle32);
NEUTRINO_MISSING(out16);
NEUTRINO_MISSING(out16s);
NEUTRINO_MISSING(out32);
NEUTRINO_MISSING(out32s);
NEUTRINO_MISSING(out8);
NEUTRINO_MISSING(out8s);
NEUTRINO_MISSING(outbe16);
NEUTRINO_MISSING(outbe32);
NEUTRINO_MISSING(outle16);
NEUTRINO_MISSING(outle32);

#ifdef __cplusplus
}
#endif

#endif
