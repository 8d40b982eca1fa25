/* mixed [SEED]: two threads with random operations, for the table of dependent operations
 * (foreign/qnx/explore/dependence.c). It prints what the threads have seen. Up to the seed 100 each thread has one
 * operation, and from there on two. If the seed is odd, the main thread doesn't wait for the second thread, and prints
 * what that has seen only if it has ended. Without a seed it prints the seeds of the test. */
#include <errno.h>
#include <pthread.h>
#include <semaphore.h>
#include <stdbool.h>
#include <stdint.h>
#include <stdio.h>
#include <stdlib.h>
#include <string.h>
#include <sys/dispatch.h>
#include <sys/neutrino.h>
#include <time.h>

enum { THREADS = 2, MOST = 2, CHANNELS = 2 };
static const uint64_t brief = 1000000;

static int chids[CHANNELS], coids[CHANNELS], held, seen[THREADS + 1][MOST];
static bool is_odd;                    /* the seed */
static int counters[2], takes, writes; /* each is used only right after an operation on its lock */
static _Thread_local char own;         /* differs for each operation of each thread */
static pthread_mutex_t locks[2] = {PTHREAD_MUTEX_INITIALIZER, PTHREAD_MUTEX_INITIALIZER};
static pthread_cond_t changed = PTHREAD_COND_INITIALIZER;
static pthread_rwlock_t shared = PTHREAD_RWLOCK_INITIALIZER;
static sem_t sem, second_ended;

static int result(long value) { return value == -1 ? -errno : (int)value; }

static void set_timeout(int states) { TimerTimeout(CLOCK_MONOTONIC, states, NULL, &brief, NULL); }

static struct timespec soon(void) {
    struct timespec until;
    clock_gettime(CLOCK_REALTIME, &until);
    nsec2timespec(&until, timespec2nsec(&until) + brief);
    return until;
}

/* ---- messages */

static int send(int channel) {
    char back = 0;
    set_timeout(_NTO_TIMEOUT_SEND | _NTO_TIMEOUT_REPLY);
    long status = MsgSend(coids[channel], "s", 1, &back, 1);
    return result(status) * 100 + back;
}

static int pulse(int channel) { return result(MsgSendPulse(coids[channel], 10, 1, channel + 1)); }

static int serve(int channel) {
    char room[64] = {0}, answer = own;
    set_timeout(_NTO_TIMEOUT_RECEIVE);
    int rcvid = MsgReceive(chids[channel], room, sizeof room, NULL);
    if (rcvid > 0) MsgReply(rcvid, answer, &answer, 1);
    return rcvid > 0 ? 1000 + answer : result(rcvid);
}

static int hold(int channel) {
    char room[64] = {0};
    set_timeout(_NTO_TIMEOUT_RECEIVE);
    int rcvid = MsgReceive(chids[channel], room, sizeof room, NULL);
    pthread_mutex_lock(&locks[0]);
    if (rcvid > 0) held = rcvid;
    pthread_mutex_unlock(&locks[0]);
    return rcvid > 0 ? 1 : result(rcvid);
}

static int reply_to_held(int channel) {
    pthread_mutex_lock(&locks[0]);
    int rcvid = held;
    pthread_mutex_unlock(&locks[0]);
    return result(channel ? MsgReply(rcvid, 5, "r", 1) : MsgError(rcvid, EBUSY));
}

static int read_held(int channel) {
    char room = 0;
    (void)channel;
    return result(MsgRead(held, &room, 1, 0)) * 100 + room;
}

static int receive_pulse(int channel) {
    struct _pulse got = {.code = 0};
    set_timeout(_NTO_TIMEOUT_RECEIVE);
    int status = MsgReceivePulse(chids[channel], &got, sizeof got, NULL);
    return status ? result(status) : got.code * 100 + got.value.sival_int;
}

static int detach(int channel) { return result(ConnectDetach(coids[channel])); }

static int attach(int channel) {
    int coid = ConnectAttach(ND_LOCAL_NODE, 0, chids[channel], _NTO_SIDE_CHANNEL, 0);
    return coid == -1 ? -errno : result(MsgSendPulse(coid, 10, 2, 7));
}

static int destroy(int channel) { return result(ChannelDestroy(chids[channel])); }

static int set_priority(int channel) {
    struct sched_param param = {.sched_priority = 12 + channel};
    return SchedSet(0, 0, SCHED_NOCHANGE, &param);
}

static int pulse_by_priority(int channel) { return result(MsgSendPulse(coids[channel], -1, 3, 9)); }

/* ---- the host's locks */

static int count(int lock) {
    pthread_mutex_lock(&locks[lock]);
    int number = ++counters[lock];
    pthread_mutex_unlock(&locks[lock]);
    return number;
}

static int count_twice(int lock) {
    pthread_mutex_lock(&locks[lock]);
    int number = count(!lock);
    pthread_mutex_unlock(&locks[lock]);
    return number;
}

static int try_lock(int lock) {
    int error = pthread_mutex_trylock(&locks[lock]);
    if (!error) pthread_mutex_unlock(&locks[lock]);
    return error;
}

static int wait_changed(int lock) {
    struct timespec until = soon();
    pthread_mutex_lock(&locks[lock]);
    int error = pthread_cond_timedwait(&changed, &locks[lock], &until);
    pthread_mutex_unlock(&locks[lock]);
    return error;
}

static int signal_changed(int all) { return all ? pthread_cond_broadcast(&changed) : pthread_cond_signal(&changed); }

static int take_sem(int once) {
    struct timespec until = soon();
    int status = result(once ? sem_trywait(&sem) : sem_timedwait(&sem, &until));
    return status * 100 + ++takes;
}

static int wait_sem(int posts) {
    sem_wait(&sem);
    int number = ++takes;
    if (posts) sem_post(&sem);
    return number;
}

static int post_sem(int none) {
    sem_post(&sem);
    return ++takes + none;
}

static int read_shared(int none) {
    pthread_rwlock_rdlock(&shared);
    int number = writes + none;
    pthread_rwlock_unlock(&shared);
    return number;
}

static int write_shared(int none) {
    pthread_rwlock_wrlock(&shared);
    int number = ++writes + none;
    pthread_rwlock_unlock(&shared);
    return number;
}

static int sleep_briefly(int longer) { return nanosleep(&(struct timespec){0, 500000 + 1000000 * longer}, NULL); }

/* ---- names and threads */

static int open_name(int place) {
    int coid = name_open("mixed", 0);
    return coid == -1 ? -errno : place;
}

static int find_pulse(int channel) {
    name_attach_t *attached = name_attach(NULL, channel ? "mixed" : "other", 0);
    return attached ? 1 : -errno;
}

static int (*const operations[])(int which) = {
    send,          pulse,       serve,       hold,         reply_to_held,  read_held,
    receive_pulse, detach,      attach,      destroy,      set_priority,   pulse_by_priority,
    count,         count_twice, try_lock,    wait_changed, signal_changed, take_sem,
    wait_sem,      post_sem,    read_shared, write_shared, sleep_briefly,  find_pulse,
};

static unsigned state;

static unsigned next_random(unsigned below) {
    state = state * 1664525u + 1013904223u;
    return (state >> 12) % below;
}

static struct work {
    int count;
    struct {
        int operation, which;
    } parts[MOST];
} works[THREADS];

static void *work(void *argument) {
    int thread = (int)(intptr_t)argument;
    for (int at = 0; at < works[thread].count; at++) {
        own = (char)(1 + thread * MOST + at);
        seen[thread][at] = operations[works[thread].parts[at].operation](works[thread].parts[at].which);
    }
    if (thread == 1 && is_odd) sem_post(&second_ended);
    return NULL;
}

static void choose_work(unsigned seed, int count) {
    state = seed * 2654435761u + 12345;
    for (int thread = 0; thread < THREADS; thread++) {
        works[thread].count = count;
        for (int at = 0; at < count; at++) {
            works[thread].parts[at].operation = (int)next_random(sizeof operations / sizeof *operations);
            works[thread].parts[at].which = (int)next_random(2);
        }
    }
}

static void print_seeds(void) {
    for (int seed = 1; seed <= 130; seed++) printf("%d\n", seed);
}

/* Prints what the first threads have seen, and the main thread. */
static void print_seen(int threads) {
    for (int thread = 0; thread < threads; thread++) {
        for (int at = 0; at < MOST; at++) printf("%d ", seen[thread][at]);
    }
    printf("%d ", seen[THREADS][0]);
}

int main(int count, char **words) {
    pthread_t threads[THREADS];
    unsigned seed = count > 1 ? (unsigned)atoi(words[1]) : 0;
    if (!seed) {
        print_seeds();
        return 0;
    }
    is_odd = seed % 2;
    choose_work(seed, seed <= 100 ? 1 : MOST);
    chids[0] = ChannelCreate(_NTO_CHF_UNBLOCK | _NTO_CHF_DISCONNECT);
    chids[1] = ChannelCreate(0);
    for (int at = 0; at < CHANNELS; at++) coids[at] = ConnectAttach(ND_LOCAL_NODE, 0, chids[at], _NTO_SIDE_CHANNEL, 0);
    sem_init(&sem, 0, seed / 2 % 2);
    sem_init(&second_ended, 0, 0);
    for (int at = 0; at < THREADS; at++) pthread_create(&threads[at], NULL, work, (void *)(intptr_t)at);
    pthread_join(threads[0], NULL);
    if (!is_odd) pthread_join(threads[1], NULL);
    if (seed % 3 == 0) seen[THREADS][0] = open_name(1);
    print_seen(is_odd && sem_trywait(&second_ended) ? 1 : THREADS);
    return 0;
}
