/* Declarations that the parts of the layer share. Tested, not proved. sys/neutrino.h is for callers.
 *
 * One lock guards a kernel. Each thread of the kernel has a place, with a word at which the thread sleeps
 * while its call is open. A thread first notes its call in its place, and opens the word. Then it takes the
 * lock and makes the call in the library, which returns completions: of this call, and of calls in which
 * other threads wait. Each completion is copied to the buffers of its own thread, and then that thread's word
 * is set to ENDED. The buffers still exist, because their thread is in its call. After the lock is released,
 * threads that sleep are woken. Memory is taken and given back without the lock.
 *
 * Under the lock a call writes only to cache lines of its thread, except for data that other threads need.
 * bench/layers.py counts the lines.
 */
#ifndef LAYER_H
#define LAYER_H

#include "balsaeuchre.h"
#include "sys/neutrino.h"

#include <errno.h>
#include <limits.h>
#include <pthread.h>
#include <stdatomic.h>
#include <stdbool.h>
#include <stdio.h>
#include <stdlib.h>
#include <string.h>
#include <unistd.h>

/* RARE: a function that few calls need. INLINED: a function that becomes a part of its callers. */
#define RARE static __attribute__((cold, noinline))
#define INLINED static inline __attribute__((always_inline))

enum { PLACES = BALSAEUCHRE_ROWS, CHANNEL_BITS = 6, CONNECTION_BITS = 10, MESSAGE_BITS = 6 };
enum { SCOID = 0x40000000 }; /* a server connection id is SCOID plus the client's process */
enum { FRONT = 1024 };       /* bytes of a receive buffer that the kernel gets; a Read brings the rest */
enum { NEAR = 2 * FRONT };   /* bytes of a thread's own room for the bytes of its calls' completions */
enum { CACHE_LINE = 64 };    /* bytes of a cache line */
/* A thread's word. OPEN: its call is open. ASLEEP: the thread also sleeps. INTERRUPTED: it has to wake and
 * end the call. ENDED: the call is completed. */
enum { OPEN, ASLEEP, INTERRUPTED, ENDED };

/* An id of the kernel, which has 40 bits, and its name, which is an int. The name is a place in a table and a
 * turn, which counts how often the place was taken. */
struct name {
    uint64_t id : 40; /* 0: the place is free */
    uint64_t owner : 8;
    uint64_t receiver : 8; /* of a channel: the thread that received last; before that, its creator */
    uint32_t turn;
    int peer; /* of a connection: its channel */
};

struct names {
    struct name *places;
    uint32_t turns; /* turns go from 1 to this number, and begin again */
    int bits;       /* of a name: the bits of the place */
};

/* The table in which the id of a call's request has its name. */
enum table { NO_TABLE, CHANNELS, CONNECTIONS, MESSAGES, TABLES };

/* A call as its thread makes it. It is on that thread's stack. While the call is open, the thread
 * with the lock may read it. */
struct call {
    balsaeuchre_request request;
    enum table table;
    int number;        /* the name of the request's id */
    uint8_t owner;     /* the owner that the name must have, or 0 */
    bool own_priority; /* a pulse gets its sender's priority; a State returns the priority */
    int states;        /* the states in which it may time out, as _NTO_TIMEOUT_* */
    uint64_t until;    /* the time at which it times out */
    const void *sent;
    size_t sent_len;
    void *room;
    size_t room_len;
    struct _msg_info *info;
    bool cancels;     /* a cancellation ends it */
    bool interrupted; /* it has to be unblocked */
};

/* A thread. The first cache line has the fields that the thread with the lock reads and writes of another
 * thread. It is used under the lock, or by the thread itself while it has no open call. The second line has
 * the word, and the thread's own fields. */
struct place {
    _Alignas(CACHE_LINE) struct call *call; /* its open call */
    void *room;                             /* the call's buffer */
    long result;
    size_t msglen;            /* the bytes of its sent message that the receive copied */
    int error;                /* of its call: an errno, or 0 if there is a result */
    int number;               /* of its call: the connection of a Send, the channel of a Receive */
    int chid, rcvid;          /* of its sent message; rcvid is 0 until it is received */
    uint8_t tid, pid, server; /* server: the thread that received its message */
    uint8_t kind, state;      /* of its call */
    bool joined;
    bool asked;      /* its server was asked by a pulse to unblock it */
    bool wants_info; /* its call takes a struct _msg_info */
    _Alignas(CACHE_LINE) _Atomic uint32_t word;
    int looks;      /* looks at its word before it sleeps, less one; -1: none */
    size_t longest; /* the longest of its buffers so far, in bytes that the kernel gets */
    size_t rest;    /* of its receive buffers, the longest part that the kernel doesn't get */
    uint64_t time;  /* of the timeout of its next call */
    int states;     /* the states of that timeout, or 0 */
    bool interruptible, cancelled;
};

_Static_assert(sizeof(struct place) == 2 * CACHE_LINE, "a place in two lines");

/* Room for an event, as in balsaeuchre.h. */
struct event {
    balsaeuchre_ending *rows;
    balsaeuchre_done done;
    uint8_t *bytes;
    size_t bytes_len;
};

/* The rows to which a thread's call writes begin with two rows of its own, which fill whole cache lines. Only
 * calls with more than two completions also write to the rows after them, which belong to other threads. */
enum { OWN_ROWS = 2, ALL_ROWS = OWN_ROWS * PLACES + 2 * BALSAEUCHRE_ROWS };
_Static_assert(OWN_ROWS * sizeof(balsaeuchre_ending) % CACHE_LINE == 0, "rows in whole lines");

struct neutrino {
    _Alignas(CACHE_LINE) pthread_mutex_t lock;
    /* Calls only read the fields from here to clock_of, except that a call with the longest buffer
     * yet writes the field most. */
    _Alignas(CACHE_LINE) balsaeuchre library;
    struct neutrino_hooks hooks;
    const struct neutrino_scheduler *scheduler; /* or null */
    size_t most;                                /* the longest buffer of all places */
    pid_t process;                              /* the host's process that opened it */
    _Alignas(CACHE_LINE) struct names tables[TABLES];
    uint8_t place_of[256];                      /* by tid; PLACES: no thread has this number */
    uint8_t clock_of[256];                      /* by process: the thread that unblocks calls that time out */
    _Alignas(CACHE_LINE) uint64_t next[TABLES]; /* the serial of a table's next number */
    size_t joined;
    size_t promised; /* the sum of the longest buffers: event has room for so many bytes */
    _Alignas(CACHE_LINE) struct name channels[1 << CHANNEL_BITS];
    struct name connections[1 << CONNECTION_BITS], messages[1 << MESSAGE_BITS];
    struct place places[PLACES];
    /* event: of calls that complete many or have no place. side: of Reads that fetch the rest of a
     * message. */
    struct event event, side;
    _Alignas(CACHE_LINE) balsaeuchre_ending rows[ALL_ROWS]; /* from this field on, nothing is cleared */
    _Alignas(CACHE_LINE) uint8_t near[PLACES][NEAR];        /* rooms of the places */
    balsaeuchre_event seen;                                 /* the event that a hook sees */
};

static uint64_t bit_of(const neutrino *k, const struct place *p) { return 1ull << (p - k->places); }

static int host_error(uint32_t error) {
    static const int host_errors[] = {0,      ESRCH,     EBADF,     EINVAL,    EAGAIN, EINTR, EBUSY,
                                      ENOMEM, ESHUTDOWN, EOVERFLOW, EOVERFLOW, ESRCH,  EPERM, EBUSY};
    bool is_known = error < sizeof host_errors / sizeof *host_errors;
    return is_known ? host_errors[error] : EIO;
}

#endif
