/* Threads that sleep on an address, under one lock of the program. Tested, not proved. */
struct sleeper {
    const volatile void *addr; /* null: it was woken */
    struct sleeper *next;
};

static struct sleeper *sleepers; /* in the order in which they began to sleep */
static pthread_mutex_t sleepon = PTHREAD_MUTEX_INITIALIZER;
static pthread_cond_t woken = PTHREAD_COND_INITIALIZER;

int pthread_sleepon_lock(void) { return ordered_mutex_lock(&sleepon); }

int pthread_sleepon_unlock(void) { return neutrino_pthread_mutex_unlock(&sleepon); }

static void stop_sleeping(void *own) {
    struct sleeper **at = &sleepers;
    while (*at != own) at = &(*at)->next;
    *at = (*at)->next;
}

/* Waits until the sleeper is woken, or until a time if that isn't null. Returns 0 or an error. */
static int sleep_until(struct sleeper *own, const struct timespec *until) {
    int error = 0;
    while (own->addr && !error) {
        if (until) error = ordered_cond_timedwait(&woken, &sleepon, until);
        else error = ordered_cond_wait(&woken, &sleepon);
    }
    return own->addr ? error : 0;
}

int pthread_sleepon_timedwait(const volatile void *addr, uint64_t nsec) {
    struct sleeper own = {addr, NULL}, **last = &sleepers;
    struct limit limit = take_limit(_NTO_TIMEOUT_CONDVAR);
    int result;
    if (nsec) limit = (struct limit){true, time_after(CLOCK_REALTIME, nsec)};
    while (*last) last = &(*last)->next;
    *last = &own;
    pthread_cleanup_push(stop_sleeping, &own);
    result = sleep_until(&own, limit.is_set ? &limit.until : NULL);
    pthread_cleanup_pop(1);
    return result;
}

int pthread_sleepon_wait(const volatile void *addr) { return pthread_sleepon_timedwait(addr, 0); }

static int wake_sleepers(const volatile void *addr, bool all) {
    for (struct sleeper *at = sleepers; at; at = at->next) {
        if (at->addr != addr) continue;
        at->addr = NULL;
        if (!all) break;
    }
    return neutrino_pthread_cond_broadcast(&woken);
}

int pthread_sleepon_signal(const volatile void *addr) { return wake_sleepers(addr, false); }

int pthread_sleepon_broadcast(const volatile void *addr) { return wake_sleepers(addr, true); }
