/* Timeouts of waits in functions of the host. */
#include "tests.h"

#include <semaphore.h>

static const uint64_t far_off = 1000000000000, soon = 1000000;

static uint64_t now_in_nanoseconds(void) {
    struct timespec now;
    check(clock_gettime(CLOCK_MONOTONIC, &now) == 0);
    return timespec2nsec(&now);
}

static struct timespec monotonic_after(uint64_t nanoseconds) {
    struct timespec time;
    nsec2timespec(&time, now_in_nanoseconds() + nanoseconds);
    return time;
}

/* Sleeps end at the timeout, and their rest is written. Without the timeout, or after it, they don't. */
void sleep_limits(void) {
    struct timespec minute = {60, 0}, brief = {0, 100000}, left = {0, 0}, until, wrong = {0, -1};
    set_timeout(_NTO_TIMEOUT_NANOSLEEP, soon);
    fails(nanosleep(&minute, &left), ETIMEDOUT);
    check(left.tv_sec >= 50 && left.tv_sec < 60 && nanosleep(&brief, NULL) == 0);
    set_timeout(_NTO_TIMEOUT_NANOSLEEP, far_off);
    check(nanosleep(&brief, NULL) == 0);
    set_timeout(_NTO_TIMEOUT_NANOSLEEP | _NTO_TIMEOUT_SEND, soon);
    check(clock_nanosleep(CLOCK_REALTIME, 0, &minute, &left) == ETIMEDOUT && left.tv_sec >= 50);
    check(clock_gettime(CLOCK_MONOTONIC, &until) == 0);
    until.tv_sec += 60;
    set_timeout(_NTO_TIMEOUT_NANOSLEEP, soon);
    check(clock_nanosleep(CLOCK_MONOTONIC, TIMER_ABSTIME, &until, NULL) == ETIMEDOUT);
    set_timeout(_NTO_TIMEOUT_NANOSLEEP, soon);
    fails(nanosleep(&wrong, NULL), EINVAL);
    set_timeout(_NTO_TIMEOUT_NANOSLEEP, soon);
    check(sleep(60) >= 50);
    set_timeout(_NTO_TIMEOUT_NANOSLEEP, soon);
    check(delay(60000) >= 50000);
    set_timeout(_NTO_TIMEOUT_NANOSLEEP, soon);
    fails(usleep(60000000), ETIMEDOUT);
    check(TimerTimeout(CLOCK_MONOTONIC, _NTO_TIMEOUT_NANOSLEEP, NULL, NULL, NULL) == 0);
    fails(usleep(60000000), ETIMEDOUT); /* no time is no wait */
    check(sleep(0) == 0 && delay(1) == 0 && usleep(1) == 0);
}

static void *pulse_later(void *coid) {
    usleep(50000);
    check(MsgSendPulse(*(int *)coid, 10, 3, 4) == 0);
    return NULL;
}

/* A timeout is of one call, also of a call that doesn't wait, and of a call of another kind. */
void used_up(void) {
    pthread_mutex_t mutex = PTHREAD_MUTEX_INITIALIZER;
    struct _pulse pulse;
    uint64_t left = 0;
    int chid = ChannelCreate(0), coid = attach(chid);
    set_timeout(_NTO_TIMEOUT_NANOSLEEP | _NTO_TIMEOUT_MUTEX, soon);
    check(pthread_mutex_lock(&mutex) == 0 && usleep(20000) == 0 && pthread_mutex_unlock(&mutex) == 0);
    set_timeout(_NTO_TIMEOUT_NANOSLEEP, soon);
    check(MsgSendPulse(coid, 10, 3, 4) == 0 && usleep(20000) == 0);
    check(MsgReceivePulse(chid, &pulse, sizeof pulse, NULL) == 0);
    pthread_t sender = start(pulse_later, &coid);
    set_timeout(_NTO_TIMEOUT_RECEIVE, 1);
    check(usleep(100) == 0 && MsgReceivePulse(chid, &pulse, sizeof pulse, NULL) == 0 && result_of(sender) == 0);
    set_timeout(_NTO_TIMEOUT_RECEIVE | _NTO_TIMEOUT_NANOSLEEP, soon);
    fails(usleep(60000000), ETIMEDOUT);
    check(MsgSendPulse(coid, 10, 3, 4) == 0 && MsgReceivePulse(chid, &pulse, sizeof pulse, NULL) == 0);
    set_timeout(_NTO_TIMEOUT_SEM, 123);
    check(TimerTimeout(CLOCK_MONOTONIC, 0, NULL, NULL, &left) == 0 && left == 123 && usleep(20000) == 0);
    set_timeout(_NTO_TIMEOUT_SEM, 123);
    check(getprio(0) > 0 && TimerTimeout(CLOCK_MONOTONIC, 0, NULL, NULL, &left) == 0 && left == 0);
    set_timeout(_NTO_TIMEOUT_NANOSLEEP, soon);
    set_timeout(0, 0);
    check(usleep(20000) == 0);
    check(ConnectDetach(coid) == 0 && ChannelDestroy(chid) == 0);
}

static void *post_later(void *semaphore) {
    usleep(20000);
    check(sem_post(semaphore) == 0);
    return NULL;
}

void semaphore_limits(void) {
    sem_t semaphore;
    struct timespec past = {1, 0};
    uint64_t until = 0, realtime;
    check(sem_init(&semaphore, 0, 1) == 0);
    set_timeout(_NTO_TIMEOUT_SEM, soon);
    check(sem_wait(&semaphore) == 0);
    set_timeout(_NTO_TIMEOUT_SEM, soon);
    fails(sem_wait(&semaphore), ETIMEDOUT);
    check(ClockTime(CLOCK_REALTIME, NULL, &realtime) == 0);
    until = realtime + soon;
    check(TimerTimeout(CLOCK_REALTIME, _NTO_TIMEOUT_SEM | TIMER_ABSTIME, NULL, &until, NULL) == 0);
    fails(sem_wait(&semaphore), ETIMEDOUT);
    pthread_t poster = start(post_later, &semaphore);
    set_timeout(_NTO_TIMEOUT_SEM, far_off);
    check(sem_wait(&semaphore) == 0 && result_of(poster) == 0);
    poster = start(post_later, &semaphore);
    set_timeout(_NTO_TIMEOUT_MUTEX, soon); /* another state */
    check(sem_wait(&semaphore) == 0 && result_of(poster) == 0);
    set_timeout(_NTO_TIMEOUT_SEM | _NTO_TIMEOUT_NANOSLEEP, soon);
    fails(sem_timedwait(&semaphore, &past), ETIMEDOUT);
    check(usleep(20000) == 0); /* the limit of its own took the timeout's place */
    set_timeout(_NTO_TIMEOUT_SEM | _NTO_TIMEOUT_NANOSLEEP, far_off);
    struct timespec limit = monotonic_after(soon);
    fails(sem_timedwait_monotonic(&semaphore, &limit), ETIMEDOUT);
    check(now_in_nanoseconds() >= timespec2nsec(&limit));
    check(sem_destroy(&semaphore) == 0);
}

static pthread_mutex_t held = PTHREAD_MUTEX_INITIALIZER;
static sem_t tried; /* the timed tries are over */

static void *try_mutex(void *argument) {
    struct timespec past = {1, 0};
    set_timeout(_NTO_TIMEOUT_MUTEX, soon);
    check(pthread_mutex_lock(&held) == ETIMEDOUT);
    set_timeout(_NTO_TIMEOUT_MUTEX, far_off);
    check(pthread_mutex_timedlock(&held, &past) == ETIMEDOUT);
    struct timespec limit = monotonic_after(soon);
    set_timeout(_NTO_TIMEOUT_MUTEX, far_off);
    check(pthread_mutex_timedlock_monotonic(&held, &limit) == ETIMEDOUT);
    check(now_in_nanoseconds() >= timespec2nsec(&limit));
    check(sem_post(&tried) == 0);
    check(pthread_mutex_lock(&held) == 0 && pthread_mutex_unlock(&held) == 0); /* without a timeout */
    return argument;
}

void mutex_limits(void) {
    pthread_mutex_t again = PTHREAD_RMUTEX_INITIALIZER;
    check(sem_init(&tried, 0, 0) == 0 && pthread_mutex_lock(&held) == 0);
    pthread_t other = start(try_mutex, NULL);
    check(sem_wait(&tried) == 0);
    usleep(20000);
    check(pthread_mutex_unlock(&held) == 0 && result_of(other) == 0);
    check(pthread_mutex_lock(&again) == 0 && pthread_mutex_lock(&again) == 0);
    check(pthread_mutex_unlock(&again) == 0 && pthread_mutex_unlock(&again) == 0);
}

static pthread_cond_t changed = PTHREAD_COND_INITIALIZER;
static int is_changed;

static void *change(void *argument) {
    usleep(20000);
    check(pthread_mutex_lock(&held) == 0);
    is_changed = 1;
    check(pthread_cond_signal(&changed) == 0 && pthread_mutex_unlock(&held) == 0);
    return argument;
}

/* A thread that sleeps on an address waits for a condition, too. */
static void sleepon_limits(void) {
    static int word;
    check(pthread_sleepon_lock() == 0);
    set_timeout(_NTO_TIMEOUT_CONDVAR, soon);
    check(pthread_sleepon_wait(&word) == ETIMEDOUT);
    set_timeout(_NTO_TIMEOUT_CONDVAR | _NTO_TIMEOUT_NANOSLEEP, far_off);
    check(pthread_sleepon_timedwait(&word, soon) == ETIMEDOUT && usleep(20000) == 0);
    check(pthread_sleepon_unlock() == 0);
}

void condition_limits(void) {
    struct timespec past = {1, 0};
    uint64_t before = now_in_nanoseconds();
    check(pthread_mutex_lock(&held) == 0);
    set_timeout(_NTO_TIMEOUT_CONDVAR, soon);
    check(pthread_cond_wait(&changed, &held) == ETIMEDOUT && now_in_nanoseconds() >= before + soon);
    check(pthread_mutex_trylock(&held) == EBUSY); /* the thread has the mutex again */
    pthread_t changer = start(change, NULL);
    while (!is_changed) {
        set_timeout(_NTO_TIMEOUT_CONDVAR, far_off);
        check(pthread_cond_wait(&changed, &held) == 0);
    }
    set_timeout(_NTO_TIMEOUT_CONDVAR | _NTO_TIMEOUT_NANOSLEEP, soon);
    check(pthread_cond_timedwait(&changed, &held, &past) == ETIMEDOUT && usleep(20000) == 0);
    check(pthread_mutex_unlock(&held) == 0 && result_of(changer) == 0);
    changer = start(change, NULL);
    check(pthread_mutex_lock(&held) == 0);
    is_changed = 0;
    while (!is_changed) check(pthread_cond_wait(&changed, &held) == 0);
    check(pthread_mutex_unlock(&held) == 0 && result_of(changer) == 0);
    sleepon_limits();
}
