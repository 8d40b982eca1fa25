/* orders NAME: small programs for the table of dependent operations (foreign/qnx/explore/dependence.c).
 *
 * Each prints what its threads have seen. Two operations whose order matters to that have to depend on one another:
 * a search that leaves out runs has to find each output that a search of all runs finds. */
#include <errno.h>
#include <pthread.h>
#include <sched.h>
#include <semaphore.h>
#include <stdint.h>
#include <stdio.h>
#include <stdlib.h>
#include <string.h>
#include <sys/dispatch.h>
#include <sys/neutrino.h>
#include <time.h>
#include <unistd.h>

typedef void *work(void *argument);

static int seen[8], chid, other_chid, coid, held, counter;
static pthread_mutex_t lock = PTHREAD_MUTEX_INITIALIZER;
static pthread_cond_t changed = PTHREAD_COND_INITIALIZER;
static pthread_rwlock_t shared = PTHREAD_RWLOCK_INITIALIZER;
static pthread_once_t once = PTHREAD_ONCE_INIT;
static pthread_barrier_t barrier;
static pthread_spinlock_t spin;
static sem_t sem;
static pthread_t threads[4];

static int number_of(void *argument) { return (int)(intptr_t)argument; }

static int attach(int to) { return ConnectAttach(ND_LOCAL_NODE, 0, to, _NTO_SIDE_CHANNEL, 0); }

static void start(int index, work *function) {
    if (pthread_create(&threads[index], NULL, function, (void *)(intptr_t)index)) abort();
}

/* Starts these threads, and waits for their ends. */
static void run(work *first, work *second, work *third) {
    work *all[] = {first, second, third};
    for (int at = 0; at < 3; at++) {
        if (all[at]) start(at, all[at]);
    }
    for (int at = 0; at < 3; at++) {
        if (all[at]) pthread_join(threads[at], NULL);
    }
}

#include "orders/messages.c"
#include "orders/tables.c"
#include "orders/locks.c"
#include "orders/threads.c"

#define CASE(name) \
    { #name, name }
static const struct {
    const char *name;
    void (*run)(void);
} cases[] = {
    CASE(sends),
    CASE(pulses),
    CASE(message_and_pulse),
    CASE(pulse_receivers),
    CASE(unblocks),
    CASE(replies),
    CASE(reads),
    CASE(two_reads),
    CASE(infos),
    CASE(writes),
    CASE(errors),
    CASE(reply_or_detach),
    CASE(read_or_detach),
    CASE(write_or_detach),
    CASE(info_or_detach),
    CASE(error_or_detach),
    CASE(send_or_detach),
    CASE(send_or_destroy),
    CASE(attach_or_destroy),
    CASE(creates),
    CASE(priorities),
    CASE(names),
    CASE(opens),
    CASE(connection_flags),
    CASE(timers),
    CASE(mutexes),
    CASE(try_locks),
    CASE(readers),
    CASE(reader_and_writer),
    CASE(writers),
    CASE(conditions),
    CASE(signals_to_two),
    CASE(broadcasts),
    CASE(semaphores),
    CASE(two_takers),
    CASE(semaphore_as_lock),
    CASE(lock_at_exit),
    CASE(barriers),
    CASE(onces),
    CASE(spins),
    CASE(sleepons),
    CASE(cancels),
    CASE(deaths),
    CASE(sleeps),
    CASE(yields),
    CASE(receivers),
};

int main(int count, char **words) {
    chid = ChannelCreate(0);
    other_chid = ChannelCreate(0);
    for (size_t at = 0; at < sizeof cases / sizeof *cases; at++) {
        if (count < 2) puts(cases[at].name);
        else if (!strcmp(words[1], cases[at].name)) cases[at].run();
    }
    for (int at = 0; count > 1 && at < 8; at++) printf("%d ", seen[at]);
    return 0;
}
