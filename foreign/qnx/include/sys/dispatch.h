/* Servers that clients find by name; functions that handle messages, pulses and files; pools of threads. The
 * functions of resource managers are missing. */
#pragma GCC system_header
#ifndef BALSAEUCHRE_QNX_DISPATCH_H
#define BALSAEUCHRE_QNX_DISPATCH_H

#include <sys/iotypes.h>
#include <sys/neutrino.h>

#ifdef __cplusplus
extern "C" {
#endif

#define NAME_FLAG_ATTACH_GLOBAL 0x2u
#define NAME_FLAG_DETACH_SAVEDPP 0x1u

typedef struct _dispatch dispatch_t;

typedef struct _name_attach {
    dispatch_t *dpp; /* the handle that has the name */
    int chid;
    int mntid;
    int zero[2];
} name_attach_t;

/* Gives the channel of a handle a name, by which name_open finds it. With a null dpp it makes a handle. A handle
 * without a channel gets one, with the flags _NTO_CHF_UNBLOCK, _NTO_CHF_DISCONNECT and _NTO_CHF_COID_DISCONNECT. A
 * global name is the same as a local name. Returns null on an error: EINVAL (no name, or it begins with / or
 * has ..), EEXIST, ENAMETOOLONG (over 255 bytes), EBUSY (64 channels are open, 64 names are attached, or the handle
 * has a name), ENOMEM. */
name_attach_t *name_attach(dispatch_t *dpp, const char *path, unsigned flags);

/* Removes the name, frees attach, and destroys the handle with its channel, unless flags has
 * NAME_FLAG_DETACH_SAVEDPP. EINVAL: attach is null, or its name is gone. */
int name_detach(name_attach_t *attach, unsigned flags);

/* Attaches to the channel with this name, and sends it an _IO_CONNECT message. The server has to reply with
 * EOK. Returns the coid, or -1: EINVAL (no name), ENOENT (no server has attached the name), the error of the
 * server's reply, and the errors of ConnectAttach and MsgSend. */
int name_open(const char *name, int flags);

/* Detaches the connection, like ConnectDetach. EINVAL. */
int name_close(int coid);

/* ---- dispatch: messages, pulses and files, each with a function that handles it */

/* What a context has received. type is of a message, and pulse of a pulse. */
typedef union _resmgr_iomsgs {
    uint16_t type;
    struct _pulse pulse;
    struct _io_connect connect;
    io_msg_t msg;
} resmgr_iomsgs_t;

typedef struct _message_context {
    int rcvid;             /* 0 for a pulse and for a file */
    struct _msg_info info; /* of a message */
    resmgr_iomsgs_t *msg;
    dispatch_t *dpp;
    int id;              /* 0 */
    unsigned tid;        /* of the thread that received */
    size_t msg_max_size; /* the bytes that msg has room for */
    long status;         /* these two are the program's */
    size_t offset;
    size_t size;  /* the bytes that were received */
    iov_t iov[1]; /* and more after it: nparts_max in all, for the program */
} message_context_t;

typedef message_context_t select_context_t;

typedef union _dispatch_context {
    message_context_t message_context;
    select_context_t select_context;
} dispatch_context_t;

typedef struct _message_attr {
    unsigned flags;
    unsigned nparts_max;
    unsigned msg_max_size; /* longer messages are truncated; a context has room for at least 2,048 bytes */
} message_attr_t;

#define MSG_FLAG_CROSS_ENDIAN 1u /* changes nothing: there is one node */
#define MSG_FLAG_DEFAULT_FUNC 2u /* the function gets the messages that no range has; low and high aren't used */
#define MSG_FLAG_ALLOC_PULSE 4u  /* pulse_attach chooses the code */
#define MSG_FLAG_SIDE_CHANNEL 8u /* the coid of message_connect is a side channel's */

#define DISPATCH_FLAG_NOLOCK 1u /* changes nothing: a handle always has a lock */

/* Make a handle. dispatch_create_channel takes a channel of the program, which stays the program's. With chid
 * -1, and in dispatch_create, the first attach creates a channel, which the handle destroys, with the flags
 * _NTO_CHF_UNBLOCK and _NTO_CHF_DISCONNECT. Return null on an error: EINVAL (another chid below 1, or another
 * flag), ENOMEM. */
dispatch_t *dispatch_create(void);
dispatch_t *dispatch_create_channel(int chid, unsigned flags);

/* Destroys a handle with all that is attached, and its channel. Threads in dispatch_block get ESRCH, and may not
 * use the handle afterwards. EINVAL: dpp is null. */
int dispatch_destroy(dispatch_t *dpp);

/* Makes a context, in which a thread receives for the handle. Null: EINVAL (dpp is null, or nothing was attached
 * to it), ENOMEM. */
dispatch_context_t *dispatch_context_alloc(dispatch_t *dpp);
void dispatch_context_free(dispatch_context_t *ctp);

/* Waits for a message, a pulse or a file. Returns the context for dispatch_handler, or null: EINVAL (ctp is null),
 * EINTR (a signal handler, or dispatch_unblock), ETIMEDOUT (dispatch_timeout), ENOMEM,
 * and the errors of MsgReceive. A cancellation point. */
dispatch_context_t *dispatch_block(dispatch_context_t *ctp);

/* Calls the function that is attached for what dispatch_block has received. A message of no range gets the
 * error ENOSYS, or the reply EOK if it is the _IO_CONNECT of a name_open. A pulse without a function is
 * dropped. The function replies, or keeps the rcvid; its result isn't used. Returns 0, or -1: EINVAL (ctp is
 * null, or has received nothing). */
int dispatch_handler(dispatch_context_t *ctp);

/* Ends the dispatch_block of the thread that uses this context, or else its next dispatch_block, with EINTR. */
void dispatch_unblock(dispatch_context_t *ctp);

/* Limits each later dispatch_block of the handle to a time. A null time is no limit. EINVAL: dpp is null, or the
 * time is invalid. */
int dispatch_timeout(dispatch_t *dpp, struct timespec *reltime);

/* Attaches a function to the messages whose first 16 bits are a number from low to high. attr may be null.
 * EINVAL: dpp or the function is null, low is below 0, high is below low or above 65,535, another flag, a number of
 * the range is attached, or a second MSG_FLAG_DEFAULT_FUNC; ENOMEM, and the errors of ChannelCreate. */
int message_attach(dispatch_t *dpp, message_attr_t *attr, int low, int high,
                   int (*func)(message_context_t *ctp, int code, unsigned flags, void *handle), void *handle);

/* Detaches a range, or a default function, with low and high as they were attached. flags isn't used. EINVAL: there
 * is no such range. */
int message_detach(dispatch_t *dpp, int low, int high, unsigned flags);

/* Attaches to the handle's channel. Returns the coid, or -1: EINVAL (dpp is null, it has no channel yet, or
 * another flag), and the errors of ConnectAttach. */
int message_connect(dispatch_t *dpp, int flags);

/* Attaches a function to the pulses of a code: _PULSE_CODE_MINAVAIL to _PULSE_CODE_MAXAVAIL, or one of the
 * kernel's, such as _PULSE_CODE_COIDDEATH. With MSG_FLAG_ALLOC_PULSE the code isn't used: it takes the first free
 * one from _PULSE_CODE_MINAVAIL. Returns the code, or 0 for _PULSE_CODE_UNBLOCK, which is -1 here. -1: EINVAL (dpp
 * or the function is null, another code, the code is attached, or another flag), EAGAIN (no code is free), ENOMEM,
 * and the errors of ChannelCreate. */
int pulse_attach(dispatch_t *dpp, int flags, int code,
                 int (*func)(message_context_t *ctp, int code, unsigned flags, void *handle), void *handle);

/* Detaches a function. EINVAL: the code isn't attached. */
int pulse_detach(dispatch_t *dpp, int code, int flags);

typedef struct _select_attr {
    unsigned flags; /* not used */
} select_attr_t;

#define SELECT_FLAG_EXCEPT 1u
#define SELECT_FLAG_READ 2u
#define SELECT_FLAG_WRITE 4u
#define SELECT_FLAG_REARM 8u /* it calls the function again and again; without it, once for each select_attach */
#define SELECT_FLAG_SRVEXCEPT 0x10u

/* Attaches a function to a file of the host, such as a pipe, a socket, a terminal or a timer: it is called,
 * with the flags that hold, when the file can be read or written or has urgent data. To attach a file again
 * changes its function. EINVAL: dpp or the function is null, no flag or another one; EBADF: no such file;
 * EPERM: a regular file, which never waits; EBUSY: another handle has the file; EAGAIN: 256 files are attached,
 * or the host has no memory; and the errors of ChannelCreate and ConnectAttach. */
int select_attach(void *dpp, select_attr_t *attr, int fd, unsigned flags,
                  int (*func)(select_context_t *ctp, int fd, unsigned flags, void *handle), void *handle);

/* Detaches a file. EINVAL: it isn't attached to the handle. */
int select_detach(void *dpp, int fd);

/* ---- pools of threads */

#ifndef THREAD_POOL_PARAM_T
#define THREAD_POOL_PARAM_T void
#endif
#ifndef THREAD_POOL_HANDLE_T
#define THREAD_POOL_HANDLE_T dispatch_t
#endif

#define POOL_FLAG_EXIT_SELF 1u /* thread_pool_start ends the calling thread */
#define POOL_FLAG_USE_SELF 2u  /* the calling thread is one of the pool, and thread_pool_start doesn't return */

typedef struct _thread_pool thread_pool_t;

typedef struct _thread_pool_attr {
    THREAD_POOL_HANDLE_T *handle; /* for context_alloc */
    THREAD_POOL_PARAM_T *(*block_func)(THREAD_POOL_PARAM_T *ctp);
    void (*unblock_func)(THREAD_POOL_PARAM_T *ctp);
    int (*handler_func)(THREAD_POOL_PARAM_T *ctp);
    THREAD_POOL_PARAM_T *(*context_alloc)(THREAD_POOL_HANDLE_T *handle);
    void (*context_free)(THREAD_POOL_PARAM_T *ctp);
    pthread_attr_t *attr; /* of the threads, or null; thread_pool_create copies it */
    unsigned short lo_water;
    unsigned short increment;
    unsigned short hi_water;
    unsigned short maximum;
    unsigned reserved[8];
} thread_pool_attr_t;

/* Makes a pool. Its threads each make a context, and then call block_func and handler_func in turn. When fewer
 * than lo_water threads wait in block_func, the pool creates increment threads, up to hi_water and maximum. A thread
 * that returns from handler_func while hi_water threads wait ends. A thread for which block_func returns null ends,
 * too, unless errno is EINTR or ETIMEDOUT. context_free and unblock_func may be null, but a pool without
 * unblock_func can't be destroyed. Returns null on an error: EINVAL (attr or another function is null, another
 * flag or both flags, or not 0 <= lo_water <= hi_water <= maximum with hi_water above 0), ENOMEM. A program has
 * 60 places for threads. */
thread_pool_t *thread_pool_create(thread_pool_attr_t *pool_attr, unsigned flags);

/* Starts lo_water threads, or one if lo_water is 0. Returns EOK, with POOL_FLAG_USE_SELF only after
 * thread_pool_destroy, and with POOL_FLAG_EXIT_SELF never. -1: EINVAL (the pool is null or has started), and
 * the errors of pthread_create if no thread could start. */
int thread_pool_start(void *pool);

/* Ends the threads that wait, waits for the others, and frees the pool. Returns EOK, or -1: EINVAL (the pool is
 * null, or it has started and has no unblock_func), EDEADLK (a thread of the pool calls it). */
int thread_pool_destroy(thread_pool_t *pool);

#define THREAD_POOL_CONTROL_NONBLOCK 1u
#define THREAD_POOL_CONTROL_LOWATER 2u
#define THREAD_POOL_CONTROL_INCREMENT 4u
#define THREAD_POOL_CONTROL_HIWATER 8u
#define THREAD_POOL_CONTROL_MAXIMUM 0x10u

/* Change the numbers of a pool. thread_pool_limits leaves those that are negative, and thread_pool_control takes
 * those that flags name. Both then create threads, or end threads that wait, as the numbers say. Unless flags
 * has THREAD_POOL_CONTROL_NONBLOCK, thread_pool_control waits until a started pool has lower to upper threads, and
 * thread_pool_limits until it has at most maximum. Return EOK, or -1: EINVAL (the pool or attr is null, another
 * flag, numbers as in thread_pool_create, or lower above upper). */
int thread_pool_limits(thread_pool_t *pool, int lowater, int hiwater, int maximum, int increment, unsigned flags);
int thread_pool_control(thread_pool_t *pool, thread_pool_attr_t *attr, uint16_t lower, uint16_t upper, unsigned flags);

/* ---- missing: a server handles its messages by message_attach, and has a name of name_attach */

NEUTRINO_MISSING_TYPE(resmgr_attr_t);
NEUTRINO_MISSING_TYPE(resmgr_connect_funcs_t);
NEUTRINO_MISSING_TYPE(resmgr_context_t);
NEUTRINO_MISSING_TYPE(resmgr_io_funcs_t);
NEUTRINO_MISSING_TYPE(sigwait_context_t);
NEUTRINO_MISSING(resmgr_attach);
NEUTRINO_MISSING(resmgr_attr_dup_set);
NEUTRINO_MISSING(resmgr_block);
NEUTRINO_MISSING(resmgr_block_dup);
NEUTRINO_MISSING(resmgr_context_alloc);
NEUTRINO_MISSING(resmgr_context_free);
NEUTRINO_MISSING(resmgr_detach);
NEUTRINO_MISSING(resmgr_devino);
NEUTRINO_MISSING(resmgr_handle_tune);
NEUTRINO_MISSING(resmgr_handler);
NEUTRINO_MISSING(resmgr_iofuncs);
NEUTRINO_MISSING(resmgr_msg_again);
NEUTRINO_MISSING(resmgr_msgget);
NEUTRINO_MISSING(resmgr_msgread);
NEUTRINO_MISSING(resmgr_msgreadv);
NEUTRINO_MISSING(resmgr_msgreply);
NEUTRINO_MISSING(resmgr_msgreplyv);
NEUTRINO_MISSING(resmgr_msgwrite);
NEUTRINO_MISSING(resmgr_msgwritev);
NEUTRINO_MISSING(resmgr_open_bind);
NEUTRINO_MISSING(resmgr_pathname);
NEUTRINO_MISSING(resmgr_unbind);
NEUTRINO_MISSING(select_query);
NEUTRINO_MISSING(sigwait_attach);
NEUTRINO_MISSING(sigwait_detach);

#ifdef __cplusplus
}
#endif

#endif
