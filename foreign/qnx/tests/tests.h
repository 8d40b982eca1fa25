/* Declarations that the tests of the front share. A test ends the program if a check fails. */
#ifndef TESTS_H
#define TESTS_H

#include <errno.h>
#include <limits.h>
#include <pthread.h>
#include <stdatomic.h>
#include <stdio.h>
#include <stdlib.h>
#include <string.h>
#include <sys/dispatch.h>
#include <sys/neutrino.h>
#include <unistd.h>

#define check(holds) \
    do { \
        if (!(holds)) { \
            fprintf(stderr, "%s:%d: %s (errno %d)\n", __FILE__, __LINE__, #holds, errno); \
            _exit(1); \
        } \
    } while (0)
#define fails(call, error) check((call) == -1 && errno == (error))
/* fails_r is for the form in _r of a function that returns a number, and returns_r for the other forms in _r.
 * No form in _r changes errno. */
#define fails_r(call, error) returns_r(call, -(error))
#define returns_r(call, error) \
    do { \
        errno = 77; \
        check((call) == (error) && errno == 77); \
    } while (0)

enum { ATTACHED = _NTO_SIDE_CHANNEL };
enum { HANGS = 300 }; /* seconds after which a child that hangs is ended; the machine may be busy */

extern int rounds; /* the rounds of a long loop */

pthread_t start(void *(*work)(void *), void *argument);
long result_of(pthread_t thread);
int attach(int chid);
void until_state(int tid, int state);
void set_timeout(int states, uint64_t nanoseconds);

/* A client that sends "hello" over coid, and the result of its send. */
struct client {
    int coid, tid;
    long status;
    int error;
    char reply[16];
    pthread_t thread;
};
void begin_send(struct client *client, int coid); /* returns when the client is SEND- or REPLY-blocked */
void end_send(struct client *client);
int receive(int chid); /* receives a message into a buffer of its own */

/* The tests, by file. */
void channels(void), connections(void), flags(void), peers(void), limits(void), disconnects(void), at_the_limit(void);
void sends(void), receives(void), replies(void), reads(void), infos(void), restarts(void), keys(void);
void vectors(void), wrong_parts(void), not_cancelled(void);
void codes(void), values(void), notes(void), many_notes(void), pulse_errors(void), pulses_received(void);
void events(void), event_errors(void), verified(void);
void pulse_timers(void), host_timers(void), timer_errors(void), timer_calls(void), set_anew(void), file_0(void);
void clocks(void);
void timeouts(void), join_timeouts(void), timed_joins(void), timeout_errors(void);
void priorities(void), inherited(void), policies(void), attributes(void), controls(void);
void seats(void), reserved(void), deaths(void), first_calls(void), forks(void), delays(void), created(void);
void sleepers(void);
void interrupted(void), handlers(void), in_handlers(void), jumps(void), many_signals(void), cancelled(void);
void many_cancelled(void), forks_in_handlers(void), small_stacks(void);
void lives(void), crowds(void), echo_1_1(void), echo_40_8(void);
void interrupts(void), shared_lines(void), interrupt_signals(void), interrupt_waits(void), interrupt_errors(void);
void sleep_limits(void), used_up(void), semaphore_limits(void), mutex_limits(void), condition_limits(void);
void logs(void), logs_in_buffers(void);
void spawns(void), spawn_files(void), spawn_of_nothing(void), spawn_inherits(void), spawn_lists(void),
    spawn_overlays(void), daemons(void);
void daemon_with_channels(void);
void client_info(void), pauses(void), pools_of_pulses(void), devices(void), small_headers(void);
void dispatched(void), dispatched_others(void), dispatched_pulses(void), dispatched_names(void), dispatch_ends(void),
    dispatch_cancelled(void);
void dispatch_errors(void), selected(void), deselected(void), select_errors(void);
void pools(void), pool_limits(void), pool_selves(void), pool_ends(void), pool_errors(void);
void headers(void), names(void), shown(void), circles(void), quits(void);

#endif
