/* Threads that send, receive and reply as under QNX Neutrino, and sleep while they wait.
 *
 * The kernel below this layer is proved (balsaeuchre.h). This layer is C: tested, not proved.
 *
 * The calls have the prototypes of QNX's Library Reference, which describes them on the pages of the same
 * names. The numbers are not QNX's: errors are the host's errno, and flags and pulse codes are this
 * project's. Message vectors, the _r forms, MsgDeliverEvent, timers, nodes, name lookup, process death and
 * resource managers are missing.
 *
 * A program opens a kernel with all its threads. Each thread joins the kernel by its number before its first
 * call. A process is a group of these threads. Every call also fails with:
 *   EPERM      the thread has not joined, or it runs in a forked child
 *   EDEADLK    a signal handler makes the call, and has interrupted another call of its thread
 *   ESHUTDOWN  the kernel is shut down
 *   ENOMEM     the allocator has no memory
 *   EOVERFLOW  the kernel has made all the 2^40 calls that it can number
 *   EFAULT     a buffer is null and its length is not 0
 * No call is a cancellation point, and no signal ends a call, unless a library above the layer asks for that
 * (neutrino_interruptible). The header needs POSIX.1-2008: -std=gnu11, or _POSIX_C_SOURCE.
 */
#ifndef BALSAEUCHRE_SYS_NEUTRINO_H
#define BALSAEUCHRE_SYS_NEUTRINO_H

#include <sched.h>
#include <signal.h>
#include <stddef.h>
#include <stdint.h>
#include <sys/types.h>
#include <time.h>

#ifndef CLOCK_MONOTONIC
#error "sys/neutrino.h wants POSIX: build with -std=gnu11, or define _POSIX_C_SOURCE as 200809L"
#endif

#ifdef __cplusplus
extern "C" {
#endif

/* The version of this header: 10 is 0.10. The headers of an unproved library (foreign/install --unproved)
 * have the second version below. */
#ifndef BALSAEUCHRE_IS_UNPROVED
#define NEUTRINO_VERSION 10
#else
#define NEUTRINO_VERSION (10 | 0x80000000u)
#endif

/* ---- opening a kernel, and joining it as a thread; QNX has no such calls */

typedef struct neutrino neutrino;

struct neutrino_thread {
    uint8_t tid;      /* 1 to 255, each once in a kernel */
    uint8_t pid;      /* 1 to 255 */
    uint8_t priority; /* 1 to 255: the initial one */
};

/* Makes a kernel with these threads. Returns null and sets errno on an error:
 *   EINVAL   a number or a priority is 0, or two threads have the same tid
 *   EAGAIN   threads and processes are more than 64 together, or the host has no thread key left
 *   ENOMEM   the allocator has no memory
 *   ENOEXEC  this header, the layer and the library don't have the same version */
static inline neutrino *neutrino_open(const struct neutrino_thread *threads, size_t count);

/* Like neutrino_open, for a caller that was built with this version of the header. */
neutrino *neutrino_open_version(uint32_t version, const struct neutrino_thread *threads, size_t count);

/* Joins the calling thread to the kernel as the thread with this number. Returns -1 and sets errno on an
 * error, as all functions below do:
 *   ESRCH   the kernel has no such number
 *   EBUSY   another thread has joined with this number, or this thread has already joined a kernel
 *   EPERM   in a forked child
 *   ENOMEM  the host has no memory */
int neutrino_join(neutrino *kernel, int tid);

/* Removes the calling thread from the kernel. A thread that ends or is cancelled leaves by itself. The
 * messages that it received stay held, and the other threads of its process can reply to them. */
int neutrino_leave(void);

/* Cancels every call that waits, with ESRCH. Every later call fails with ESHUTDOWN. A second shutdown also
 * succeeds. The caller need not have joined. */
int neutrino_shutdown(neutrino *kernel);

/* Frees the kernel. EBUSY: a thread is joined. EPERM: in a forked child. */
int neutrino_close(neutrino *kernel);

/* Ends the call in which a thread of the caller's process waits, with EINTR. If the thread is REPLY-blocked
 * on a channel with the flag _NTO_CHF_UNBLOCK, it stays blocked, and the server gets an unblock pulse. ESRCH:
 * the thread belongs to another process. */
int neutrino_unblock(int tid);

enum neutrino_state { STATE_READY = 1, STATE_SEND, STATE_RECEIVE, STATE_REPLY };

/* Returns the state of a thread (0: the caller) of any process, or -1 and ESRCH. */
int neutrino_state(int tid);

/* Returns a thread's priority, 1 to 255, or -1 and ESRCH. */
int neutrino_priority(int tid);

/* ---- for a library over this layer, such as foreign/qnx */

/* From now on neutrino_interrupt and neutrino_cancel end calls of the calling thread. Errors: EPERM,
 * EDEADLK. */
int neutrino_interruptible(void);

/* Ends the call in which the calling thread waits, as neutrino_unblock does: with EINTR, or its server gets
 * an unblock pulse. Does nothing if the thread doesn't wait. For signal handlers: it doesn't change errno. */
void neutrino_interrupt(void);

/* Returns 1 if the calling thread is in a call, and 0 if not. In a signal handler 1 means that the
 * handler has interrupted a call. */
int neutrino_inside(void);

/* Calls work, whose calls are then calls of the thread with this number. No thread may have joined with this
 * number. The calling thread need not have joined. If it has, it is afterwards the same thread as before. The
 * errors are the errors of neutrino_join, except ENOMEM. */
int neutrino_act_as(neutrino *kernel, int tid, void (*work)(void *argument), void *argument);

/* Ends the call in which this thread waits, as neutrino_interrupt does, and each later call that has to
 * wait. A call in which cancellation is disabled continues. ESRCH: no such thread has joined. The
 * caller need not have joined. */
int neutrino_cancel(neutrino *kernel, int tid);

struct balsaeuchre_request;
struct balsaeuchre_event;
struct _pulse;

/* Functions that the layer calls under the kernel's lock. They may call no function of this
 * header. Each may be null. */
struct neutrino_hooks {
    /* after each call of the kernel, with its buffers as they were passed */
    void (*call)(const struct balsaeuchre_request *request, const void *sent, size_t sent_len, const void *room,
                 size_t room_len, const struct balsaeuchre_event *event);
    /* before a program's own pulse is copied to its receiver; it may change the pulse */
    void (*pulse)(struct _pulse *pulse);
};

/* Sets the hooks. It has to be called before a second thread uses the kernel. */
void neutrino_set_hooks(neutrino *kernel, const struct neutrino_hooks *hooks);

/* The functions of a library that lets one thread run at a time, and chooses which. The layer calls them
 * without the kernel's lock, except ended. They may call no function of this header. None may be null. */
struct neutrino_scheduler {
    /* The calling thread waits for its turn to make a call. kind is BALSAEUCHRE_SEND and so on. chid is the channel
     * that the call uses, or 0. client is the thread whose message the call uses, or 0. */
    void (*turn)(uint32_t kind, int chid, int client);
    /* The calling thread has its turn, and is about to make the call. is_valid: the call's number names something. The
     * other arguments may have changed since turn. */
    void (*before)(uint32_t kind, int is_valid, int chid, int client);
    /* The calling thread's call is about to return. */
    void (*after)(void);
    /* The calling thread's call has to wait until *word is at least 2, or until a time if that isn't 0. Returns
     * whether that time has come. tid is the thread's number. */
    int (*wait)(int tid, const void *word, uint64_t until);
    /* The calling thread has completed or cancelled the call of this thread. */
    void (*ended)(int tid);
    /* Returns the time in nanoseconds, in place of CLOCK_MONOTONIC. */
    uint64_t (*now)(void);
};

/* Sets the scheduler, which has to stay. It has to be called before a second thread uses the kernel. Without
 * a scheduler the host schedules the threads. */
void neutrino_set_scheduler(neutrino *kernel, const struct neutrino_scheduler *scheduler);

struct neutrino_blocked {
    int state;  /* as neutrino_state returns it; 0: no thread has joined with this number */
    int chid;   /* of the channel on which it is blocked, or 0 */
    int rcvid;  /* of its message if it is REPLY-blocked, or 0 */
    int server; /* of a REPLY-blocked thread: the thread that received its message; of a SEND-blocked thread:
                   the thread that received last on the channel, or created it if none has; otherwise 0 */
};

/* Fills all[0] to all[255], by tid, as the threads are at one time. Errors: EPERM, EDEADLK. The
 * caller need not have joined. */
int neutrino_look(neutrino *kernel, struct neutrino_blocked *all);

/* ---- the names of the Library Reference */

#ifndef EOK
#define EOK 0
#endif

#define ND_LOCAL_NODE 0
#define _NTO_SIDE_CHANNEL 0u

#define _NTO_CHF_FIXED_PRIORITY 1u
#define _NTO_CHF_UNBLOCK 2u
#define _NTO_CHF_DISCONNECT 4u
#define _NTO_CHF_SENDER_LEN 0u /* srcmsglen and dstmsglen are always filled in */
#define _NTO_CHF_REPLY_LEN 0u

#define _PULSE_TYPE 0
#define _PULSE_CODE_MINAVAIL 0 /* a program's own pulse codes */
#define _PULSE_CODE_MAXAVAIL 127
#define _PULSE_CODE_UNBLOCK (-1)    /* value.sival_int: the rcvid, or 0 if the message has its reply by now */
#define _PULSE_CODE_DISCONNECT (-2) /* scoid: as in the messages from this process */

#define _NTO_MI_UNBLOCK_REQ 0x100 /* flags of _msg_info: the sender was unblocked, and waits for the reply */

struct _pulse {
    uint16_t type;
    uint16_t subtype;
    int8_t code;
    uint8_t zero[3];
    union sigval value;
    int32_t scoid;
};

struct _msg_info {
    uint32_t nd;
    uint32_t srcnd;
    pid_t pid; /* of the sender */
    int32_t tid;
    int32_t chid;
    int32_t scoid; /* one for each process that sends */
    int32_t coid;
    int16_t priority;
    int16_t flags;     /* _NTO_MI_UNBLOCK_REQ or 0 */
    ssize_t msglen;    /* bytes that the receive copied */
    ssize_t srcmsglen; /* bytes of the message */
    ssize_t dstmsglen; /* bytes of the reply buffer */
    uint32_t type_id;
    uint32_t reserved;
};

/* Creates a channel of the caller's process. Returns its chid, or -1: EAGAIN (64 are open), EINVAL
 * (flags). */
int ChannelCreate(unsigned flags);

/* Destroys a channel, and cancels the calls that wait on it, with ESRCH. EINVAL: the channel is not open, or
 * belongs to another process. */
int ChannelDestroy(int chid);

/* Attaches to a channel of the process pid (0: the caller's). Returns the coid, or -1: ESRCH (no such channel
 * or node), EAGAIN (1,024 connections). index and flags are ignored. */
int ConnectAttach(uint32_t nd, pid_t pid, int chid, unsigned index, int flags);

/* Detaches a connection, and cancels each MsgSend over it, with EBADF. EINVAL: there is no such
 * connection. Ignores an scoid. */
int ConnectDetach(int coid);

/* Sends a message, and waits for the reply. Returns the status of the MsgReply, or -1: the error of
 * the MsgError, EBADF (no such connection, or its channel is gone), ESRCH (the channel was
 * destroyed), EINTR, ETIMEDOUT. */
long MsgSend(int coid, const void *smsg, size_t sbytes, void *rmsg, size_t rbytes);

/* Waits for a message or a pulse. Returns the rcvid of a message, or 0 for a pulse. A pulse is truncated if
 * msg is too short. info is written only for a message, and may be null. ESRCH: this process has no such
 * channel, or the channel was destroyed. Other errors: EINTR, ETIMEDOUT. */
int MsgReceive(int chid, void *msg, size_t bytes, struct _msg_info *info);

/* Waits for a pulse. info is not written. */
int MsgReceivePulse(int chid, void *pulse, size_t bytes, struct _msg_info *info);

/* Replies to a message that the process holds. ESRCH: it holds no such message. */
int MsgReply(int rcvid, long status, const void *msg, size_t bytes);
int MsgError(int rcvid, int error);

/* MsgRead copies from a held message, and MsgWrite into its sender's reply buffer. Both return the number of
 * bytes. MsgInfo writes the facts of a held message. ESRCH: the process holds no such message. */
ssize_t MsgRead(int rcvid, void *msg, size_t bytes, size_t offset);
ssize_t MsgWrite(int rcvid, const void *msg, size_t bytes, size_t offset);
int MsgInfo(int rcvid, struct _msg_info *info);

/* Sends a pulse. priority is 1 to 255, or -1 for the caller's priority. code is 0 to 127. Errors: EBADF,
 * EINVAL, EAGAIN (1,024 pulses wait on the channel). */
int MsgSendPulse(int coid, int priority, int code, int value);

/* Sets the priority of a thread (0: the caller) of the caller's process. It orders messages, and does not
 * change the host's scheduling. policy is ignored. Errors: ESRCH, EINVAL. */
int SchedSet(pid_t pid, int tid, int policy, const struct sched_param *param);

#define _NTO_TIMEOUT_SEND (1 << STATE_SEND)
#define _NTO_TIMEOUT_RECEIVE (1 << STATE_RECEIVE)
#define _NTO_TIMEOUT_REPLY (1 << STATE_REPLY)

#ifndef SIGEV_UNBLOCK
#define SIGEV_UNBLOCK 0x6e71
#define SIGEV_UNBLOCK_INIT(event) ((void)((event)->sigev_notify = SIGEV_UNBLOCK))
#endif

/* Sets the timeout of this thread's next call. It is over once *ntime nanoseconds have passed since the call
 * was made and the call is in one of the states of flags. Then the thread is unblocked as by
 * neutrino_unblock, and the call fails with ETIMEDOUT. If ntime is null, the call does not wait in these
 * states at all. flags 0 removes the timeout. notify is null or of SIGEV_UNBLOCK. *otime, if otime is not
 * null, gets the time of the timeout that is replaced, or 0. EINVAL: another flag or event, or another clock
 * than CLOCK_MONOTONIC or CLOCK_REALTIME. Both clocks have the same effect. */
int TimerTimeout(clockid_t id, int flags, const struct sigevent *notify, const uint64_t *ntime, uint64_t *otime);

static inline neutrino *neutrino_open(const struct neutrino_thread *threads, size_t count) {
    return neutrino_open_version(NEUTRINO_VERSION, threads, count);
}

#ifdef __cplusplus
}
#endif

#endif
