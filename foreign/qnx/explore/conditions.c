/* The host's condition variables in an explored run, and otherwise. Tested, not proved.
 *
 * A signal wakes the thread that has waited longest. No thread is woken without a signal. */
static bool is_woken(const struct task *t) { return t->is_woken; }

/* Begins a wait: releases the mutex in the same step. */
static void begin_cond_wait(pthread_cond_t *cond, pthread_mutex_t *mutex) {
    state_operation(DO_COND_WAIT, &(struct about){.address = mutex});
    add_access(me, ADDRESS, &(struct about){.address = cond}, true);
    give_turn();
    note_event(me, DO_COND_WAIT, me->accesses);
    release_mutex(mutex);
    me->is_woken = false;
}

static int await_signal(pthread_cond_t *cond, pthread_mutex_t *mutex, uint64_t until) {
    begin_cond_wait(cond, mutex);
    struct wait wait = {is_woken, cond, until};
    bool is_late = step_until(DO_COND_WAKE, &(struct about){.address = cond}, &wait) && !me->is_woken;
    lock_mutex(mutex, 0);
    if (me->is_cancelled) pthread_testcancel();
    return is_late ? ETIMEDOUT : 0;
}

static int ordered_cond_wait(pthread_cond_t *cond, pthread_mutex_t *mutex) {
    return explores() ? await_signal(cond, mutex, 0) : pthread_cond_wait(cond, mutex);
}

/* The clock of a condition variable is taken from the time: no run is as long as the calendar. */
static int ordered_cond_timedwait(pthread_cond_t *cond, pthread_mutex_t *mutex, const struct timespec *until) {
    if (!explores()) return pthread_cond_timedwait(cond, mutex, until);
    bool is_calendar = timespec2nsec(until) >= CALENDAR * 1000000000ull;
    return await_signal(cond, mutex, on_clock(is_calendar ? CLOCK_REALTIME : CLOCK_MONOTONIC, until));
}

int neutrino_pthread_cond_clockwait(pthread_cond_t *cond, pthread_mutex_t *mutex, clockid_t id,
                                    const struct timespec *until) {
    if (!explores()) return pthread_cond_clockwait(cond, mutex, id, until);
    return await_signal(cond, mutex, on_clock(id, until));
}

/* Returns the task that has waited longest for an object, or null. */
static struct task *first_waiting(const void *awaited) {
    struct task *first = NULL;
    for (int at = 0; at < TASKS; at++) {
        struct task *t = &tasks[at];
        bool waits = life_of(t) == PRESENT && t->can_run == is_woken && t->awaited == awaited && !t->is_woken &&
                     !t->is_late;
        if (waits && (!first || t->last_turn < first->last_turn)) first = t;
    }
    return first;
}

/* Wakes a task, which now depends on all operations of the caller so far. */
static void wake_task(struct task *t) {
    t->is_woken = true;
    t->past = mix_in(t->past, me->past);
    note_ended(t);
}

static int signal_waiting(pthread_cond_t *cond, bool all) {
    step(DO_COND_SIGNAL, &(struct about){.address = cond});
    for (struct task *t; (t = first_waiting(cond));) {
        wake_task(t);
        if (!all) break;
    }
    return 0;
}

int neutrino_pthread_cond_signal(pthread_cond_t *cond) {
    return explores() ? signal_waiting(cond, false) : pthread_cond_signal(cond);
}

int neutrino_pthread_cond_broadcast(pthread_cond_t *cond) {
    return explores() ? signal_waiting(cond, true) : pthread_cond_broadcast(cond);
}
