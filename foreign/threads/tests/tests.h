/* Functions that the tests of the layer share. If a check fails, the test ends the program with status 1. */
#ifndef TESTS_H
#define TESTS_H

#define _GNU_SOURCE
#include <sys/neutrino.h>

#include <errno.h>
#include <pthread.h>
#include <stdatomic.h>
#include <stdio.h>
#include <stdlib.h>
#include <string.h>
#include <unistd.h>

#define check(holds) \
    do { \
        if (!(holds)) { \
            fprintf(stderr, "%s:%d: %s (errno %d)\n", __FILE__, __LINE__, #holds, errno); \
            _exit(1); \
        } \
    } while (0)
#define fails(call, error) check((call) == -1 && errno == (error))

/* Processes, and the threads of `few`. */
enum { SERVER = 1, CLIENTS = 2, OTHERS = 3 };
/* Thread 1 of SERVER, 2 and 3 of CLIENTS, and 4 of OTHERS, with the priorities 10, 20, 30 and 5. */
extern const struct neutrino_thread few[4];

/* The arguments of a thread that makes one call. The thread returns the call's result, or -errno. */
struct job {
    neutrino *kernel;
    int tid, chid, states;
    uint64_t time; /* nanoseconds of a timeout for the states */
    char reply[8];
    int coid; /* the connection over which it sends, or 0: it attaches one */
};

neutrino *open_few(void);         /* with the caller as thread 1 */
void close_few(neutrino *kernel); /* only the caller may have joined it */
void become(neutrino *kernel, int tid);
pthread_t start(void *(*work)(void *), void *argument);
long result_of(pthread_t thread);
void *send_once(void *job);    /* sends "hello" */
void *receive_once(void *job); /* into 8 bytes */
void until_state(int tid, int state);
void set_timeout(int states, uint64_t nanoseconds);

extern int rounds; /* of an echo test with one client */

/* The tests, by file. */
void not_joined(void), joins(void), versions(void), rosters(void), two_kernels(void);
void messages(void), lengths(void), long_messages(void), pulses(void), priorities(void), limits(void), numbers(void);
void unblocks(void), timeouts(void), timeout_states(void), detaches(void), destroys(void), parts(void);
void shutdowns(void);
void forks(void), cancels(void), exits(void), signals(void), memory(void);
void interrupts(void), cancelled(void), acts(void), full_channels(void), looks(void), hooks(void);
void echo_1_1(void), echo_8_4(void), echo_32_16(void), late_8_4(void), late_40_8(void);

#endif
