/* Adaptive partitions are missing, since the host schedules: use its cgroups. */
#pragma GCC system_header
#ifndef BALSAEUCHRE_QNX_SCHED_APS_H
#define BALSAEUCHRE_QNX_SCHED_APS_H

#include <sys/missing.h>

#ifdef __cplusplus
extern "C" {
#endif

NEUTRINO_MISSING_TYPE(sched_aps_create_parms);
NEUTRINO_MISSING_TYPE(sched_aps_info);
NEUTRINO_MISSING_TYPE(sched_aps_join_parms);
NEUTRINO_MISSING_TYPE(sched_aps_lookup_parms);
NEUTRINO_MISSING_TYPE(sched_aps_partition_info);

#ifdef __cplusplus
}
#endif

#endif
