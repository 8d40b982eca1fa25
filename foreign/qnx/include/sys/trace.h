/* Trace events are missing: BALSAEUCHRE_RECORD records a run. */
#pragma GCC system_header
#ifndef BALSAEUCHRE_QNX_TRACE_H
#define BALSAEUCHRE_QNX_TRACE_H

#include <sys/missing.h>

#ifdef __cplusplus
extern "C" {
#endif

NEUTRINO_MISSING(trace_func_enter);
NEUTRINO_MISSING(trace_func_exit);
NEUTRINO_MISSING(trace_here);
NEUTRINO_MISSING(trace_logb);
NEUTRINO_MISSING(trace_logf);
NEUTRINO_MISSING(trace_logi);
NEUTRINO_MISSING(trace_nlogf);
NEUTRINO_MISSING(trace_vnlogf);

#ifdef __cplusplus
}
#endif

#endif
