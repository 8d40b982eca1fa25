/* The host's sched.h, with QNX's priorities, 1 to 255 for each policy. Four functions take a pid, and work on
 * the calling thread like SchedSet and SchedGet of sys/neutrino.h. They are sched_setparam, sched_getparam,
 * sched_getscheduler, and sched_setscheduler, which returns the old policy. */
#pragma GCC system_header
#ifndef BALSAEUCHRE_QNX_NO_WRAPPERS
#pragma redefine_extname sched_setparam neutrino_sched_setparam
#pragma redefine_extname sched_getparam neutrino_sched_getparam
#pragma redefine_extname sched_setscheduler neutrino_sched_setscheduler
#pragma redefine_extname sched_getscheduler neutrino_sched_getscheduler
#pragma redefine_extname sched_get_priority_min neutrino_sched_get_priority_min
#pragma redefine_extname sched_get_priority_max neutrino_sched_get_priority_max
#pragma redefine_extname sched_yield neutrino_sched_yield
#endif
#ifndef _BITS_TYPES_STRUCT_SCHED_PARAM
/* The host's struct has only the first member, and is only passed by address. */
#define _BITS_TYPES_STRUCT_SCHED_PARAM 1
struct sched_param {
    int sched_priority;    /* as it was last set */
    int sched_curpriority; /* the thread's current priority, which may be its client's; not read */
};
#endif
#include_next <sched.h>
#ifndef BALSAEUCHRE_QNX_SCHED_H
#define BALSAEUCHRE_QNX_SCHED_H
#include <sys/types.h>
#ifdef __cplusplus
extern "C" {
#endif

#define SCHED_NOCHANGE 0x6e00 /* with this, SchedSet doesn't change the policy */
#define SCHED_SPORADIC 0x6e01
#define SCHED_ADJTOHEAD 0x6e02 /* SchedSet does nothing: no thread waits for a processor here */
#define SCHED_ADJTOTAIL 0x6e03
#define SCHED_SETPRIO SCHED_NOCHANGE

/* Return and set the priority of the calling thread. pid is 0 or the program's. setprio returns the old
 * priority. -1: ESRCH (another process), EINVAL (the priority isn't from 1 to 255), and the errors of a first
 * call. */
int getprio(pid_t pid);
int setprio(pid_t pid, int priority);

#ifdef __cplusplus
}
#endif
#endif
