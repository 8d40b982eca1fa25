/* The host's semaphores and barriers in an explored run, and otherwise. Tested, not proved. */
#include <semaphore.h>

static bool is_above_0(const struct task *t) {
    int value = 0;
    sem_getvalue((sem_t *)(uintptr_t)t->awaited, &value);
    return value > 0;
}

static int ordered_sem_wait(sem_t *sem) {
    if (!explores()) return sem_wait(sem);
    await_lock(DO_SEM_WAIT, is_above_0, sem, 0);
    if (me->is_cancelled) pthread_testcancel();
    return sem_trywait(sem);
}

int neutrino_sem_trywait(sem_t *sem) {
    if (explores()) step(DO_SEM_WAIT, &(struct about){.address = sem});
    return sem_trywait(sem);
}

static int wait_until(sem_t *sem, uint64_t until) {
    if (await_lock(DO_SEM_WAIT, is_above_0, sem, until)) return fail(ETIMEDOUT);
    if (me->is_cancelled) pthread_testcancel();
    return sem_trywait(sem);
}

static int ordered_sem_timedwait(sem_t *sem, const struct timespec *until) {
    return explores() ? wait_until(sem, on_clock(CLOCK_REALTIME, until)) : sem_timedwait(sem, until);
}

int neutrino_sem_clockwait(sem_t *sem, clockid_t id, const struct timespec *until) {
    return explores() ? wait_until(sem, on_clock(id, until)) : sem_clockwait(sem, id, until);
}

int neutrino_sem_post(sem_t *sem) {
    if (explores()) step(DO_SEM_POST, &(struct about){.address = sem});
    return sem_post(sem);
}

int neutrino_sem_getvalue(sem_t *sem, int *value) {
    if (explores()) step(DO_SEM_READ, &(struct about){.address = sem});
    return sem_getvalue(sem, value);
}

/* ---- barriers: how many threads each waits for, and how many have come */

enum { BARRIERS = 256 };

static struct barrier {
    const void *address; /* null: none */
    unsigned count, came;
} barriers[BARRIERS];

static struct barrier *barrier_at(const void *address) {
    for (int at = 0; at < BARRIERS; at++) {
        if (barriers[at].address == address) return &barriers[at];
    }
    return NULL;
}

int neutrino_pthread_barrier_init(pthread_barrier_t *barrier, const pthread_barrierattr_t *attributes, unsigned count) {
    struct barrier *b = barrier_at(barrier);
    if (explores() && !b) b = barrier_at(NULL);
    if (explores() && !b) end_run(NO_ROOM);
    int error = pthread_barrier_init(barrier, attributes, count);
    if (explores() && !error) *b = (struct barrier){barrier, count, 0};
    return error;
}

int neutrino_pthread_barrier_destroy(pthread_barrier_t *barrier) {
    struct barrier *b = explores() ? barrier_at(barrier) : NULL;
    if (b) b->address = NULL;
    return pthread_barrier_destroy(barrier);
}

int neutrino_pthread_barrier_wait(pthread_barrier_t *barrier) {
    struct barrier *b = explores() ? barrier_at(barrier) : NULL;
    if (!b) return pthread_barrier_wait(barrier);
    release_order(barrier);
    step(DO_BARRIER, &(struct about){.address = barrier});
    bool is_last = ++b->came == b->count;
    if (is_last) {
        b->came = 0;
        for (struct task *t; (t = first_waiting(barrier));) wake_task(t);
    } else {
        me->is_woken = false;
        struct wait wait = {is_woken, barrier, 0};
        step_until(DO_BARRIER_END, &(struct about){.address = barrier}, &wait);
    }
    acquire_order(barrier);
    return is_last ? PTHREAD_BARRIER_SERIAL_THREAD : 0;
}
