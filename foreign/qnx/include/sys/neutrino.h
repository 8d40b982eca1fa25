/* QNX Neutrino's messages, pulses, channels, connections, timeouts and events, for threads of one program on
 * Linux.
 *
 * QNX's programs compile as they are: cc program.c $(pkg-config --cflags --libs balsaeuchre-qnx). The kernel
 * is proved. This front, and the layer of threads between the front and the kernel, are C: tested, not
 * proved.
 *
 * A program's first call opens its kernel. A thread takes one of 60 places at its first call, and gives it
 * back when it ends. A call of a 61st thread waits ten seconds for a place, and then fails with EAGAIN. The
 * main thread has tid 1 if it makes the first call or creates the first thread.
 *
 * The calls work as QNX's Library Reference says, on the pages of the same names, with these differences:
 *   - The whole program is one process; a pid is 0 or getpid(), and ND_LOCAL_NODE is the only node.
 *   - Priorities, 1 to 255, order the queued messages and pulses of a channel. Nothing is scheduled, and no
 *     busy server is boosted.
 *   - A receiver keeps the priority that it received with until its next receive.
 *   - There are at most 64 channels, 1,024 connections, and 1,024 queued pulses of a channel. At these limits
 *     calls fail with EAGAIN.
 *   - Numbers of flags, pulse codes and errors are not QNX's: sources compile, object code doesn't link.
 *
 * A call returns -1 and sets errno on an error. Every call also fails with:
 *   - EAGAIN: its thread has no place;
 *   - ENOMEM;
 *   - EOVERFLOW: 2^40 calls were made, or parts are too long;
 *   - EFAULT: a buffer is null and its length is not 0;
 *   - EDEADLK: a signal handler makes the call, and has interrupted another call of its thread.
 *
 * A signal handler's pulse is always sent, soon after its call. If it inherits a priority, it gets the usual
 * priority (10). The forms in _r don't change errno. If the function returns a number, its form in _r returns
 * the negative error. The other forms in _r return the error or EOK.
 *
 * MsgSend and MsgReceive are cancellation points, and so are their forms, except the forms in nc. A signal
 * handler that runs while a call is blocked ends the call with EINTR. But a client whose message is received,
 * on a channel with _NTO_CHF_UNBLOCK, stays blocked, and its server gets an unblock pulse.
 */
#pragma GCC system_header
#ifndef BALSAEUCHRE_QNX_NEUTRINO_H
#define BALSAEUCHRE_QNX_NEUTRINO_H

#include <errno.h>
#include <inttypes.h>
#include <limits.h>
#include <pthread.h>
#include <sched.h>
#include <signal.h>
#include <stddef.h>
#include <stdint.h>
#include <sys/missing.h>
#include <sys/neutrino_interrupts.h>
#include <sys/neutrino_peers.h>
#include <sys/siginfo.h>
#include <sys/types.h>
#include <sys/uio.h>
#include <time.h>
#include <unistd.h>

#include <sys/layer_names.h>
#include_next <sys/neutrino.h> /* struct _pulse, struct _msg_info, and the constants that are not here */
#include <sys/layer_names.h>

#ifdef __cplusplus
extern "C" {
#endif

/* Flags of struct _msg_info that are never set. */
#define _NTO_MI_ENDIAN_BIG 0x1
#define _NTO_MI_ENDIAN_DIFF 0x2
#define _NTO_MI_NET_CRED_DIRTY 0x200
#define _NTO_MI_CONSTRAINED 0x400
#define _NTO_MI_BITS_DIFF 0x800
#define _NTO_MI_BITS_64 0

/* States that a timeout ends, with _NTO_TIMEOUT_SEND, _NTO_TIMEOUT_RECEIVE and _NTO_TIMEOUT_REPLY. In these
 * states the thread waits in a function of the host, or in InterruptWait. */
#define _NTO_TIMEOUT_CONDVAR (1 << 10)   /* pthread_cond_wait, pthread_cond_timedwait */
#define _NTO_TIMEOUT_INTR (1 << 11)      /* InterruptWait */
#define _NTO_TIMEOUT_JOIN (1 << 12)      /* pthread_join */
#define _NTO_TIMEOUT_MUTEX (1 << 13)     /* pthread_mutex_lock, pthread_mutex_timedlock */
#define _NTO_TIMEOUT_NANOSLEEP (1 << 14) /* nanosleep, clock_nanosleep, sleep, usleep, delay */
#define _NTO_TIMEOUT_SEM (1 << 15)       /* sem_wait, sem_timedwait */

/* States that no timeout ends: TimerTimeout fails with EINVAL. */
#define _NTO_TIMEOUT_SIGSUSPEND (1 << 16)
#define _NTO_TIMEOUT_SIGWAITINFO (1 << 17)

typedef int rcvid_t;

/* ---- channels and connections */

/* Flags of a channel, with _NTO_CHF_FIXED_PRIORITY, _NTO_CHF_UNBLOCK and _NTO_CHF_DISCONNECT. The flags
 * without a comment change nothing, since all channels are the program's. _NTO_CHF_SENDER_LEN and
 * _NTO_CHF_REPLY_LEN change nothing either, since both lengths are always in struct _msg_info. */
#define _NTO_CHF_THREAD_DEATH 0x100u    /* a pulse when a thread of the program ends */
#define _NTO_CHF_COID_DISCONNECT 0x200u /* a pulse for each connection whose channel is destroyed */
#define _NTO_CHF_PRIVATE 0x400u
#define _NTO_CHF_GLOBAL 0x800u
#define _NTO_CHF_INHERIT_RUNMASK 0x1000u
#define _NTO_CHF_NOT_MERGEABLE 0x2000u

/* Creates a channel. Returns its chid, or -1: EINVAL (another flag), EAGAIN (64 are open). */
int ChannelCreate(unsigned flags);
int ChannelCreate_r(unsigned flags);

/* A channel's own pool of pulses, and the event that tells its server that the pool is used up. */
struct nto_channel_config {
    struct sigevent event;
    unsigned num_pulses;
    unsigned rearm_threshold;
    unsigned options;
    unsigned reserved[3];
};

/* ChannelCreate with a pool of pulses. Each channel has 1,024 places for pulses here, whatever num_pulses
 * says, and the event is never delivered: the sender of one pulse more gets EAGAIN. -1: EINVAL (no config, no
 * pulses, or more than 1,024), and the errors of ChannelCreate. */
int ChannelCreatePulsePool(unsigned flags, const struct nto_channel_config *config);
int ChannelCreatePulsePool_r(unsigned flags, const struct nto_channel_config *config);

/* Destroys a channel. MsgSend and MsgReceive on it are cancelled with ESRCH. EINVAL: no such channel. */
int ChannelDestroy(int chid);
int ChannelDestroy_r(int chid);

#undef _NTO_SIDE_CHANNEL
#define _NTO_SIDE_CHANNEL 0x40000000
#define _NTO_GLOBAL_CHANNEL 0 /* QNX has channels of the whole system; here they are the program's */

/* The system manager's process, channel and connection. There is none: ConnectAttach to it fails with ESRCH,
 * and a MsgSend over its coid with EBADF. */
#define SYSMGR_PID 1
#define SYSMGR_CHID 1
#define SYSMGR_COID _NTO_SIDE_CHANNEL
#define SYSMGR_HANDLE 0

/* Flags of a connection. Each is kept, and changes nothing. */
#define _NTO_COF_CLOEXEC 0x1
#define _NTO_COF_DEAD 0x2
#define _NTO_COF_NOSHARE 0x40
#define _NTO_COF_NETCON 0x80
#define _NTO_COF_NONBLOCK 0x100
#define _NTO_COF_REG_EVENTS 0x400

/* Attaches to a channel. Returns the coid, which has the bit _NTO_SIDE_CHANNEL if index has it, or -1: ESRCH
 * (another node or process, or no such channel), EAGAIN (1,024 connections). */
int ConnectAttach(uint32_t nd, pid_t pid, int chid, unsigned index, int flags);
int ConnectAttach_r(uint32_t nd, pid_t pid, int chid, unsigned index, int flags);

/* Detaches a connection. Each MsgSend over it is cancelled with EBADF. Does nothing for an scoid. EINVAL: no
 * such connection; EAGAIN: the disconnect pulse would be the 1,025th queued pulse of the channel. */
int ConnectDetach(int coid);
int ConnectDetach_r(int coid);

/* Sets the flags in mask of a connection to their values in bits. Returns all old flags, or -1: ESRCH
 * (another process), EBADF (no such connection). */
int ConnectFlags(pid_t pid, int coid, unsigned mask, unsigned bits);
int ConnectFlags_r(pid_t pid, int coid, unsigned mask, unsigned bits);

/* ---- messages */

typedef struct iovec iov_t;
#define SETIOV(iov, base, len) neutrino_set_iov(iov, (void *)(uintptr_t)(base), (size_t)(len))
#define SETIOV_CONST SETIOV
static inline void neutrino_set_iov(iov_t *iov, void *base, size_t len) {
    iov->iov_base = base;
    iov->iov_len = len;
}
#define GETIOVBASE(iov) ((iov)->iov_base)
#define GETIOVLEN(iov) ((iov)->iov_len)

/* With this error, MsgError has the client's MsgSend made again. The number is the host's. */
#ifndef ERESTART
#define ERESTART 85
#endif

/* Sends a message, and waits for the reply. Returns the status of the MsgReply, or -1. Then the error is the
 * MsgError's, or EBADF (no such connection or it was detached, or its channel is destroyed), ESRCH (the
 * channel was destroyed meanwhile), EINTR or ETIMEDOUT. In the forms in v both the message and the reply
 * buffer have parts, in vs only the message, and in sv only the reply buffer. */
long MsgSend(int coid, const void *smsg, size_t sbytes, void *rmsg, size_t rbytes);
long MsgSendv(int coid, const iov_t *siov, size_t sparts, const iov_t *riov, size_t rparts);
long MsgSendsv(int coid, const void *smsg, size_t sbytes, const iov_t *riov, size_t rparts);
long MsgSendvs(int coid, const iov_t *siov, size_t sparts, void *rmsg, size_t rbytes);
long MsgSendnc(int coid, const void *smsg, size_t sbytes, void *rmsg, size_t rbytes);
long MsgSendvnc(int coid, const iov_t *siov, size_t sparts, const iov_t *riov, size_t rparts);
long MsgSendsvnc(int coid, const void *smsg, size_t sbytes, const iov_t *riov, size_t rparts);
long MsgSendvsnc(int coid, const iov_t *siov, size_t sparts, void *rmsg, size_t rbytes);
long MsgSend_r(int coid, const void *smsg, size_t sbytes, void *rmsg, size_t rbytes);
long MsgSendv_r(int coid, const iov_t *siov, size_t sparts, const iov_t *riov, size_t rparts);
long MsgSendsv_r(int coid, const void *smsg, size_t sbytes, const iov_t *riov, size_t rparts);
long MsgSendvs_r(int coid, const iov_t *siov, size_t sparts, void *rmsg, size_t rbytes);
long MsgSendnc_r(int coid, const void *smsg, size_t sbytes, void *rmsg, size_t rbytes);
long MsgSendvnc_r(int coid, const iov_t *siov, size_t sparts, const iov_t *riov, size_t rparts);
long MsgSendsvnc_r(int coid, const void *smsg, size_t sbytes, const iov_t *riov, size_t rparts);
long MsgSendvsnc_r(int coid, const iov_t *siov, size_t sparts, void *rmsg, size_t rbytes);

/* Waits for a message or a pulse. Returns the rcvid of a message, or 0 for a pulse, or -1: ESRCH (no such
 * channel, or it was destroyed), EINTR, ETIMEDOUT. info, if it isn't null, is filled in only for a message.
 * Of several receivers the newest gets the next message or pulse. */
rcvid_t MsgReceive(int chid, void *msg, size_t bytes, struct _msg_info *info);
rcvid_t MsgReceivev(int chid, const iov_t *riov, size_t rparts, struct _msg_info *info);
rcvid_t MsgReceive_r(int chid, void *msg, size_t bytes, struct _msg_info *info);
rcvid_t MsgReceivev_r(int chid, const iov_t *riov, size_t rparts, struct _msg_info *info);

/* Replies to a message. ESRCH: the program holds no such message. */
int MsgReply(rcvid_t rcvid, long status, const void *msg, size_t bytes);
int MsgReplyv(rcvid_t rcvid, long status, const iov_t *riov, size_t rparts);
int MsgReply_r(rcvid_t rcvid, long status, const void *msg, size_t bytes);
int MsgReplyv_r(rcvid_t rcvid, long status, const iov_t *riov, size_t rparts);

/* Ends the client's MsgSend with this error. EOK is a reply of status 0, and ERESTART has the message sent
 * again. ESRCH. */
int MsgError(rcvid_t rcvid, int error);
int MsgError_r(rcvid_t rcvid, int error);

/* Copy from a message, or into its client's reply buffer, from an offset on. Return the number of bytes that
 * were copied, which is 0 for an offset past the end. -1: ESRCH. */
ssize_t MsgRead(rcvid_t rcvid, void *msg, size_t bytes, size_t offset);
ssize_t MsgReadv(rcvid_t rcvid, const iov_t *riov, size_t rparts, size_t offset);
ssize_t MsgWrite(rcvid_t rcvid, const void *msg, size_t bytes, size_t offset);
ssize_t MsgWritev(rcvid_t rcvid, const iov_t *iov, size_t parts, size_t offset);
ssize_t MsgRead_r(rcvid_t rcvid, void *msg, size_t bytes, size_t offset);
ssize_t MsgReadv_r(rcvid_t rcvid, const iov_t *riov, size_t rparts, size_t offset);
ssize_t MsgWrite_r(rcvid_t rcvid, const void *msg, size_t bytes, size_t offset);
ssize_t MsgWritev_r(rcvid_t rcvid, const iov_t *iov, size_t parts, size_t offset);

/* Fills in the info of a message. Its flags have _NTO_MI_UNBLOCK_REQ if the client is to be unblocked. ESRCH,
 * EFAULT. */
int MsgInfo(rcvid_t rcvid, struct _msg_info *info);
int MsgInfo_r(rcvid_t rcvid, struct _msg_info *info);

/* Says which message this thread works on. It changes nothing, since a receiver already has its client's
 * priority. ESRCH. */
int MsgCurrent(rcvid_t rcvid);
int MsgCurrent_r(rcvid_t rcvid);

/* Says that this thread works on the message later: the thread gets its own priority back, and the message
 * stays held. The cookie isn't used. ESRCH. */
int MsgPause(rcvid_t rcvid, unsigned cookie);
int MsgPause_r(rcvid_t rcvid, unsigned cookie);

#define _NTO_KEYDATA_CALCULATE 0
#define _NTO_KEYDATA_VERIFY 1
#define _NTO_KEYDATA_PATHSIGN 0x8000

/* Calculates a key from the data and from the private key, by a function that only this program has, and
 * writes it to *key2. Or it verifies *key2. Returns 0, or 1 if the data or a key was changed. -1: EINVAL
 * (another oper), EFAULT (no key2), ESRCH. The key protects against mistakes, and isn't cryptography. */
int MsgKeyData(rcvid_t rcvid, int oper, uint32_t key, uint32_t *key2, const iov_t *iov, int parts);
int MsgKeyData_r(rcvid_t rcvid, int oper, uint32_t key, uint32_t *key2, const iov_t *iov, int parts);

/* ---- pulses */

#define _PULSE_CODE_THREADDEATH (-3) /* value.sival_int: the tid */
#define _PULSE_CODE_COIDDEATH (-4)   /* value.sival_int: the coid */
#define _PULSE_CODE_NET_ACK (-5)     /* these are never sent */
#define _PULSE_CODE_NET_UNBLOCK (-6)
#define _PULSE_CODE_NET_DETACH (-7)
#define _PULSE_CODE_RESTART (-8)
#define _PULSE_SUBTYPE 0

/* Sends a pulse. The priority is 1 to 255, or SIGEV_PULSE_PRIO_INHERIT for the caller's. The code is -128 to
 * 127; a program's own codes are _PULSE_CODE_MINAVAIL to _PULSE_CODE_MAXAVAIL. Equal pulses aren't merged.
 * The errors:
 *   - EBADF: no such connection, or its channel is destroyed;
 *   - EINVAL: the priority or the code is out of range;
 *   - EAGAIN: 1,024 pulses are queued on the channel. Or 4,096 pulses with a negative code, the code 127 or a
 *     value of more than 32 bits are queued on all channels together. */
int MsgSendPulse(int coid, int priority, int code, int value);
int MsgSendPulsePtr(int coid, int priority, int code, void *value);
int MsgSendPulse_r(int coid, int priority, int code, int value);
int MsgSendPulsePtr_r(int coid, int priority, int code, void *value);

/* Waits for a pulse. Returns 0, or -1: ESRCH, EINTR, ETIMEDOUT. info is not written. */
int MsgReceivePulse(int chid, void *pulse, size_t bytes, struct _msg_info *info);
int MsgReceivePulsev(int chid, const iov_t *piov, size_t parts, struct _msg_info *info);
int MsgReceivePulse_r(int chid, void *pulse, size_t bytes, struct _msg_info *info);
int MsgReceivePulsev_r(int chid, const iov_t *piov, size_t parts, struct _msg_info *info);

/* ---- events */

/* Delivers an event that a client gave with a message, also after the reply:
 *   - SIGEV_PULSE: sends the event's pulse;
 *   - SIGEV_SIGNAL, SIGEV_SIGNAL_CODE: signals the program;
 *   - SIGEV_SIGNAL_THREAD: signals the thread that sent the message. The message must still be held;
 *   - SIGEV_UNBLOCK: unblocks the thread that sent the message. The message must still be held;
 *   - SIGEV_NONE: does nothing.
 *
 * EINVAL (another event, or its numbers), EFAULT, ESRCH (rcvid is negative, or the message isn't held), and
 * the errors of MsgSendPulse. */
int MsgDeliverEvent(rcvid_t rcvid, const struct sigevent *event);
int MsgDeliverEvent_r(rcvid_t rcvid, const struct sigevent *event);

/* Returns 0 if MsgDeliverEvent would accept the event. EINVAL, EFAULT; EBADF: no such connection. */
int MsgVerifyEvent(rcvid_t rcvid, const struct sigevent *event);
int MsgVerifyEvent_r(rcvid_t rcvid, const struct sigevent *event);

/* Registers an event for the server of coid, or for all servers if coid is -1. Here any server may deliver
 * any event, so the event is only checked: EINVAL, EFAULT, EBADF. */
int MsgRegisterEvent(struct sigevent *event, int coid);
int MsgRegisterEvent_r(struct sigevent *event, int coid);
int MsgUnregisterEvent(const struct sigevent *event);
int MsgUnregisterEvent_r(const struct sigevent *event);

/* ---- timeouts and timers */

/* Sets the timeout of this thread's next call, as timer_timeout of time.h does. The call ends with ETIMEDOUT
 * once *ntime nanoseconds have passed and it is in one of the states of flags. But a client whose message is
 * received on a channel with _NTO_CHF_UNBLOCK stays blocked, and its server gets an unblock pulse. If ntime
 * is null, the call doesn't wait in these states. The next call is a call of this header or a function that
 * the states name; each of them uses up the timeout, whether it waits or not. With TIMER_ABSTIME in flags,
 * *ntime is a time of the clock id. flags 0 removes the timeout. *otime gets the timeout that is replaced, or
 * 0. EINVAL: no such state, another event than SIGEV_UNBLOCK, another clock than CLOCK_MONOTONIC and
 * CLOCK_REALTIME. */
int TimerTimeout(clockid_t id, int flags, const struct sigevent *notify, const uint64_t *ntime, uint64_t *otime);
int TimerTimeout_r(clockid_t id, int flags, const struct sigevent *notify, const uint64_t *ntime, uint64_t *otime);

/* Times in nanoseconds. If the interval is 0, the timer expires once. */
struct _itimer {
    uint64_t nsec;
    uint64_t interval_nsec;
};

#define _NTO_TI_ACTIVE 0x1u   /* it is set to expire */
#define _NTO_TI_ABSOLUTE 0x2u /* it was last set with TIMER_ABSTIME */
#define _NTO_TIMER_SEARCH 0x1

struct _timer_info {
    struct _itimer itime; /* both have the time that is left, and the interval */
    struct _itimer otime;
    uint32_t flags;
    int32_t tid; /* 0 */
    int32_t notify;
    clockid_t clockid;
    uint32_t overruns;
    struct sigevent event;
};

/* The timers of time.h. TimerCreate returns the id; a null event is SIGALRM. TimerInfo returns the id of the
 * timer whose data it fills in. With _NTO_TIMER_SEARCH this may be the next timer. -1: EINVAL (no such
 * timer), EFAULT (no itime or info), ESRCH (another process), and the errors of timer_create and
 * timer_settime. */
int TimerCreate(clockid_t id, const struct sigevent *event);
int TimerCreate_r(clockid_t id, const struct sigevent *event);
int TimerDestroy(timer_t id);
int TimerDestroy_r(timer_t id);
int TimerSettime(timer_t id, int flags, const struct _itimer *itime, struct _itimer *oitime);
int TimerSettime_r(timer_t id, int flags, const struct _itimer *itime, struct _itimer *oitime);
int TimerInfo(pid_t pid, timer_t id, int flags, struct _timer_info *info);
int TimerInfo_r(pid_t pid, timer_t id, int flags, struct _timer_info *info);

struct _clockperiod {
    uint32_t nsec;
    int32_t fract; /* 0 */
};

/* ClockTime gives the nanoseconds of a clock since 1970, or since the clock began. ClockPeriod gives the
 * period of CLOCK_REALTIME. No program can set them: EPERM if the new value isn't null, but EINVAL from
 * ClockTime for another clock than CLOCK_REALTIME. EINVAL: no such clock; from ClockPeriod also another clock
 * than CLOCK_REALTIME, or reserved isn't 0. */
int ClockTime(clockid_t id, const uint64_t *new_time, uint64_t *old);
int ClockTime_r(clockid_t id, const uint64_t *new_time, uint64_t *old);
int ClockPeriod(clockid_t id, const struct _clockperiod *new_period, struct _clockperiod *old, int reserved);
int ClockPeriod_r(clockid_t id, const struct _clockperiod *new_period, struct _clockperiod *old, int reserved);

/* Returns the clock of the processor time of the program, or of its thread tid if that isn't 0. A clock may
 * be negative, so there is no form in _r. ESRCH: no such thread, or another program. */
int ClockId(pid_t pid, int tid);

/* ---- threads */

#define _NTO_THREAD_NAME_MAX 100 /* pthread_setname_np keeps 15 of them */

struct _thread_name {
    int32_t new_name_len; /* -1: the name stays */
    int32_t old_name_len; /* the bytes that name_buf has for the old name; 0: it isn't written */
    char name_buf[1];     /* and more bytes after it: the new name, and then the old name with a closing 0 */
};

#define _NTO_TCTL_IO 1 /* these four change nothing: there is no hardware, and the host schedules */
#define _NTO_TCTL_IO_PRIV 2
#define _NTO_TCTL_IO_LEVEL 3
#define _NTO_TCTL_RUNMASK 4
#define _NTO_TCTL_RUNMASK_GET_AND_SET 5 /* data is an unsigned: the new mask, and then the old one */
#define _NTO_TCTL_NAME 11               /* data is a struct _thread_name */
#define _NTO_TCTL_THREADS_HOLD 12       /* these four fail with ENOTSUP: no thread stops another one */
#define _NTO_TCTL_THREADS_CONT 13
#define _NTO_TCTL_ONE_THREAD_HOLD 14
#define _NTO_TCTL_ONE_THREAD_CONT 15

/* Controls the calling thread. A mask of _NTO_TCTL_RUNMASK_GET_AND_SET is kept for the thread, and changes
 * nothing. EINVAL: another command; EFAULT: the data of a name or of a mask are null; E2BIG: a name of over
 * 100 bytes; ENOTSUP. */
int ThreadCtl(int cmd, void *data);
int ThreadCtl_r(int cmd, void *data);

/* SchedSet sets the priority of a thread (0: the caller). With SCHED_ADJTOHEAD or SCHED_ADJTOTAIL it changes
 * nothing. SchedGet gets the priority, and returns the policy that was last set, or SCHED_RR. A tid may also
 * be the result of pthread_self. ESRCH: another process, or no such thread; EINVAL, EFAULT. */
int SchedSet(pid_t pid, int tid, int policy, const struct sched_param *param);
int SchedSet_r(pid_t pid, int tid, int policy, const struct sched_param *param);
int SchedGet(pid_t pid, int tid, struct sched_param *param);
int SchedGet_r(pid_t pid, int tid, struct sched_param *param);

struct _sched_info {
    uint64_t interval; /* of a time slice: 0, since nothing is scheduled here */
    int32_t priority_min;
    int32_t priority_max;
    int32_t priority_priv; /* the lowest priority that needs a privilege: none does */
    int32_t reserved[11];
};

/* Fills in the data of a policy. ESRCH: another process; EINVAL: no such policy; EFAULT: no info. */
int SchedInfo(pid_t pid, int policy, struct _sched_info *info);
int SchedInfo_r(pid_t pid, int policy, struct _sched_info *info);
int SchedYield(void);
int SchedYield_r(void);

/* Returns the nanoseconds since some time in the past. sys/syspage.h has the rate. */
static inline uint64_t ClockCycles(void) {
    struct timespec now;
    clock_gettime(CLOCK_MONOTONIC, &now);
    return (uint64_t)now.tv_sec * 1000000000u + (uint64_t)now.tv_nsec;
}

/* ---- seeing a run; QNX has no such function
 *
 * SIGQUIT makes neutrino_show print to standard error, unless the program handles or ignores the signal. Two
 * variables of the environment have an effect. BALSAEUCHRE_RECORD=FILE.names writes the run as a script:
 * qdemo script runs it, qdemo chart draws it, and qdemo script --explain explains it. BALSAEUCHRE_CIRCLES=1
 * reports a circle of threads that send to one another, on standard error. */

/* Prints the threads, their states, and the threads on which they are blocked, like pidin. */
void neutrino_show(int fd);

#ifdef __cplusplus
}
#endif

#endif
