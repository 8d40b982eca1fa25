/* Declarations that the parts of the daemon share. Tested, not proved.
 *
 * One thread makes all calls, on memory of the library that only this process has. It waits only in epoll:
 * it reads and writes a socket without waiting, one packet at a time, and takes one request at a time from
 * a box. Most threads of the kernel are seats for the programs' threads: each process has some. Each
 * process also has a clock, which is never blocked and makes calls for the process. One more thread of the
 * kernel is the daemon's own.
 */
#ifndef BALSAEUCHRE_DAEMON_H
#define BALSAEUCHRE_DAEMON_H

#include "layer.h"
#include "wire.h"

#include <fcntl.h>
#include <stdio.h>
#include <sys/epoll.h>
#include <sys/socket.h>
#include <sys/un.h>

enum { CLIENTS = 256, PROCESSES = 32, CLOCKS = 100, SYSTEM = 200, RETRY = 10 }; /* RETRY: milliseconds */
enum { USUAL = 10, SIDE = SCOID };
enum { LONG_ASK = 1 << 16, KEPT = 64 << 20 }; /* bytes; KEPT: of free memory that the host doesn't get back */
enum { CHANNEL_PLACES = 1 << CHANNEL_BITS, CONNECTION_PLACES = 1 << CONNECTION_BITS };
enum { WAITING = 1024 }; /* pulses that wait on a channel, at most */
_Static_assert(PROCESSES <= 1 << SLOT_BITS, "a process in the bits of a place");

/* A connected socket: a program's own, or a thread's. Before its first packet it is neither. */
struct client {
    bool is_used, is_process;
    int fd;                   /* -1: it has ended, while the thread's call is still open */
    int bell;                 /* of a thread; -1: none */
    struct wire_box *box;     /* of a thread, or null */
    uint32_t asked, given_up; /* the values last read from the box */
    bool rings;               /* the value last written to the box */
    struct ucred peer;
    uint8_t process;     /* 0: it hasn't joined */
    struct place *place; /* of a thread */
    int tid;             /* of a thread, in its process */
    pid_t host_tid;      /* of a thread, as the thread reports it */
    struct wire_ask ask; /* the open request */
    struct call call;
    struct wire_answer answer;
    uint8_t *bytes; /* of the call: sent, then room; null: too many, or no memory */
    size_t size;
    bool wrote;       /* a Write has changed the reply buffer */
    uint64_t came_as; /* its number in the order of accepts */
};

static const struct client no_client = {.fd = -1, .bell = -1};

/* A process of the kernel: a place for a program of the host. */
struct process {
    struct ucred peer; /* pid 0: the place is free */
    int pidfd;         /* of the program; -1: it has ended */
    int scoid;
    uint64_t came_as;  /* the number of its socket in the order of accepts */
    uint64_t first;    /* the serial of the first message that may come from it */
    uint64_t ended_as; /* its number in the order in which programs end; 0: it has not ended */
    bool retries;      /* calls that the kernel refused at its end are tried again */
    uint64_t asked_at; /* the time of its last request */
    uint64_t due;      /* the time until which its long requests are paid for, see turns.c */
    /* A bit for each process that it was connected to, or that was connected to it, at its last long
     * request. */
    uint32_t partners;
    size_t bytes;
    int channels, connections;
    uint32_t ngroups;
    gid_t groups[WIRE_GROUPS];
};

static struct {
    int processes, threads, channels, connections, bytes;
    gid_t group; /* its members may also connect, if has_group */
    bool has_group;
} limits = {0, 0, 16, 256, 8 << 20, 0, false};

/* The threads of each process if no option says how many. With a clock for each process they are 63. */
static const uint8_t usual_threads[] = {18, 8, 5, 4, 3, 3, 2, 2, 2, 2, 1, 1};

static neutrino kernel_of_all, *const k = &kernel_of_all;
static struct client clients[CLIENTS];
static struct client *client_of[PLACES]; /* by the index of its seat in k->places */
static struct process processes[PROCESSES];
static int gone, ending; /* threads whose socket has ended; processes whose end is tried again */

static uint8_t clock_of(int process) { return (uint8_t)(CLOCKS + process); }

static int threads_of(int process) { return limits.threads ? limits.threads : usual_threads[process - 1]; }

#endif
