/* Declarations that the parts of the front share. Tested, not proved. The headers in the folder include are
 * for callers.
 *
 * The front uses the layer of threads only by the layer's header. One lock, `front`, protects the tables of
 * the front. A thread that has `front` may take the kernel's lock. A thread that has the kernel's lock
 * doesn't take `front`: the hooks, which the layer calls under the kernel's lock, don't take it.
 */
#ifndef FRONT_H
#define FRONT_H

#include "../daemon/remote.h"
#include "../daemon/wire.h"
#include "balsaeuchre.h"

#include <errno.h>
#include <limits.h>
#include <pthread.h>
#include <stdatomic.h>
#include <stdbool.h>
#include <stdio.h>
#include <stdlib.h>
#include <string.h>
#include <sys/dispatch.h>
#include <sys/neutrino.h>
#include <unistd.h>

/* The threads of the kernel: the program's, and two threads of the front. One of the two, SYSTEM, belongs to
 * a process of its own, so that its connections aren't the program's. With the layer's two clocks there are
 * 64 threads. */
enum { SEATS = 60, TICKER, SYSTEM };
enum { PROGRAM = 1, SYSTEM_PROCESS = 2 };
enum { LOWEST = 1, USUAL = 10, HIGHEST = 255 }; /* priorities */
enum { SIDE = _NTO_SIDE_CHANNEL, SCOIDS = 255 };
/* ENTRIES: each thread may just have detached a connection that is still in the table. */
enum { CHANNELS = 64, CONNECTIONS = 1024, ENTRIES = CONNECTIONS + SEATS };
enum { TIMERS = 256, NAMES = 64, NAME_LENGTH = 256, THREAD_NAME = 16 };
enum { LINES = 256, FILES = 256 }; /* interrupt lines; files of select_attach */
/* What the front's own thread waits for, as numbers of its epoll: the timers from 0 on, an order, the interrupt
 * lines, and the files. */
enum { WAIT_ORDER = TIMERS, WAIT_LINE, WAIT_FILE = WAIT_LINE + LINES };

enum { MESSAGE_STATES = _NTO_TIMEOUT_SEND | _NTO_TIMEOUT_RECEIVE | _NTO_TIMEOUT_REPLY };
enum {
    HOST_STATES = _NTO_TIMEOUT_CONDVAR | _NTO_TIMEOUT_INTR | _NTO_TIMEOUT_JOIN | _NTO_TIMEOUT_MUTEX |
                  _NTO_TIMEOUT_NANOSLEEP | _NTO_TIMEOUT_SEM
};

/* The timeout of the calling thread's next call. The layer has the part of messages. */
static _Thread_local struct {
    int states; /* 0: none is set */
    uint64_t time;
} next_wait;

static bool exploring; /* the run is explored (explore/tasks.c) */
static pthread_mutex_t front = PTHREAD_MUTEX_INITIALIZER;
/* Above 0: the thread has the front's lock, or uses the buffers of its seat. Its own signal handlers read
 * this. */
static _Thread_local volatile sig_atomic_t holding;
static _Thread_local int cancel_state; /* the thread's cancellation state before it took the lock */

static void look_away(void);
static void look_again(void);

/* In an explored run one thread runs at a time, and a call may give the turn while the lock is held. So there the lock
 * isn't taken, and ThreadSanitizer doesn't look (explore/sanitizer.c). */
static void hold(void) {
    int state;
    pthread_setcancelstate(PTHREAD_CANCEL_DISABLE, &state);
    holding++;
    if (exploring) look_away();
    else pthread_mutex_lock(&front);
    cancel_state = state;
}

static void release(void) {
    int state = cancel_state, ignored;
    if (exploring) look_again();
    else pthread_mutex_unlock(&front);
    holding--;
    pthread_setcancelstate(state, &ignored);
}

static int fail(int error) {
    errno = error;
    return -1;
}

static bool is_priority(int priority) { return priority >= LOWEST && priority <= HIGHEST; }

/* Returns the layer's number of a connection: the layer numbers connections without the bit of side channels.
 * An scoid has that bit, and below it a number of at most 255. With the daemon an scoid has one more bit,
 * which no connection has. */
static int plain(int coid) { return coid & ~SIDE; }

static bool is_scoid(int coid) {
    bool is_remote = coid > 0 && (coid & WIRE_SCOID) == WIRE_SCOID && neutrino_remote();
    return is_remote || (coid > SIDE && coid <= SIDE + SCOIDS);
}

#endif
