/* The process manager's functions that have a meaning on the host. The others are missing. */
#pragma GCC system_header
#ifndef BALSAEUCHRE_QNX_PROCMGR_H
#define BALSAEUCHRE_QNX_PROCMGR_H

#include <sys/neutrino.h>

#ifdef __cplusplus
extern "C" {
#endif

#define PROCMGR_PID SYSMGR_PID
#define PROCMGR_CHID SYSMGR_CHID
#define PROCMGR_COID SYSMGR_COID

#define PROCMGR_DAEMON_NOCHDIR 1u   /* the folder stays; otherwise it is / */
#define PROCMGR_DAEMON_NOCLOSE 2u   /* the files stay open; otherwise those above 2 are closed */
#define PROCMGR_DAEMON_NODEVNULL 4u /* the files 0 to 2 stay; otherwise they are /dev/null */
#define PROCMGR_DAEMON_KEEPUMASK 8u /* the umask stays; otherwise it is 0 */

/* Makes the program a daemon, in a session of its own. A program that has made no call yet, and has no other
 * thread, continues in a child of the host, so that its parent sees an end with the status: it has another
 * pid. Otherwise it stays the same process, and keeps its threads, its channels and all files above 2; its
 * parent sees nothing. Returns 0, or -1: EINVAL (another flag), and the errors of fork, chdir and open. */
int procmgr_daemon(int status, unsigned flags);

/* Flags and abilities of procmgr_ability. The host gives privileges, so each has no effect. */
#define PROCMGR_ADN_ROOT 0x10000u
#define PROCMGR_ADN_NONROOT 0x20000u
#define PROCMGR_AOP_DENY 0x40000u
#define PROCMGR_AOP_ALLOW 0x80000u
#define PROCMGR_AOP_LOCK 0x100000u
#define PROCMGR_AOP_SUBRANGE 0x200000u
#define PROCMGR_AOP_INHERIT_YES 0x400000u
#define PROCMGR_AOP_INHERIT_NO 0x800000u
#define PROCMGR_AID_EOL 0u
#define PROCMGR_AID_SPAWN_SETUID 1u
#define PROCMGR_AID_SPAWN_SETGID 2u
#define PROCMGR_AID_SETUID 3u
#define PROCMGR_AID_SETGID 4u
#define PROCMGR_AID_GETID 5u
#define PROCMGR_AID_PATHSPACE 6u
#define PROCMGR_AID_REBOOT 7u
#define PROCMGR_AID_CPUMODE 8u
#define PROCMGR_AID_RUNSTATE 9u
#define PROCMGR_AID_CONFSET 10u
#define PROCMGR_AID_RSRCDBMGR 11u
#define PROCMGR_AID_SESSION 12u
#define PROCMGR_AID_UMASK 13u
#define PROCMGR_AID_EVENT 14u
#define PROCMGR_AID_RLIMIT 15u
#define PROCMGR_AID_MEM_ADD 16u
#define PROCMGR_AID_MEM_PHYS 17u
#define PROCMGR_AID_MEM_PEER 18u
#define PROCMGR_AID_MEM_GLOBAL 19u
#define PROCMGR_AID_MEM_LOCK 20u
#define PROCMGR_AID_MEM_SPECIAL 21u
#define PROCMGR_AID_PROT_EXEC 22u
#define PROCMGR_AID_PROT_WRITE_AND_EXEC 23u
#define PROCMGR_AID_MAP_FIXED 24u
#define PROCMGR_AID_HIGH_MEM 25u
#define PROCMGR_AID_CLOCKSET 26u
#define PROCMGR_AID_CLOCKPERIOD 27u
#define PROCMGR_AID_INTERRUPT 28u
#define PROCMGR_AID_IO 29u
#define PROCMGR_AID_KEYDATA 30u
#define PROCMGR_AID_TRACE 31u
#define PROCMGR_AID_PRIORITY 32u
#define PROCMGR_AID_CONNECTION 33u
#define PROCMGR_AID_SCHEDULE 34u
#define PROCMGR_AID_SIGNAL 35u
#define PROCMGR_AID_TIMER 36u
#define PROCMGR_AID_DEFAULT_TIMER_TOLERANCE 37u
#define PROCMGR_AID_APS_ROOT 38u
#define PROCMGR_AID_PGRP 39u
#define PROCMGR_AID_FORK 40u
#define PROCMGR_AID_SPAWN 41u
#define PROCMGR_AID_CHILD_NEWAPP 42u
#define PROCMGR_AID_WAIT 43u
#define PROCMGR_AID_XPROCESS_QUERY 44u
#define PROCMGR_AID_XPROCESS_DEBUG 45u
#define PROCMGR_AID_XPROCESS_MEM_READ 46u
#define PROCMGR_AID_RCONSTRAINT 47u
#define PROCMGR_AID_PATH_TRUST 48u
#define PROCMGR_AID_POWER 49u
#define PROCMGR_AID_RUNSTATE_BURST 50u
#define PROCMGR_AID_SRANDOM 51u
#define PROCMGR_AID_QNET 52u
#define PROCMGR_AID_PUBLIC_CHANNEL 53u
#define PROCMGR_AID_ABLE_CREATE 54u
#define PROCMGR_AID_ABLE_PRIV 55u
#define PROCMGR_AID_SWAP 56u
#define PROCMGR_AID_NONE 57u

/* Returns EOK for the program (pid 0, or its pid), whatever the abilities are: the program has what the host
 * gives its user. ESRCH: another process. */
int procmgr_ability(pid_t pid, unsigned ability, ...);

NEUTRINO_MISSING(procmgr_ability_create);
NEUTRINO_MISSING(procmgr_ability_lookup);
NEUTRINO_MISSING(procmgr_event_notify);
NEUTRINO_MISSING(procmgr_event_trigger);
NEUTRINO_MISSING(procmgr_guardian);
NEUTRINO_MISSING(procmgr_session);
NEUTRINO_MISSING(procmgr_set_critical);
NEUTRINO_MISSING(procmgr_timer_tolerance);
NEUTRINO_MISSING(procmgr_value_notify_add);
NEUTRINO_MISSING(procmgr_value_notify_delete);

#ifdef __cplusplus
}
#endif

#endif
