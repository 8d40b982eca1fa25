/* Timers of pulses in an explored run. Tested, not proved.
 *
 * Such a timer has a timerfd, which is never set. Its times are here, at the timer's index. */
static struct virtual_timer {
    clockid_t clock;
    uint64_t due, interval; /* due 0: it isn't set */
    uint64_t expired;       /* how often it has expired and no pulse was sent */
} virtual_timers[TIMERS];

static uint64_t next_expiry(void) {
    uint64_t next = NEVER;
    for (int at = 0; at < TIMERS; at++) {
        if (virtual_timers[at].due && virtual_timers[at].due < next) next = virtual_timers[at].due;
    }
    return next;
}

static void expire_timers(void) {
    for (int at = 0; at < TIMERS; at++) {
        struct virtual_timer *t = &virtual_timers[at];
        if (!t->due || t->due > virtual_time) continue;
        t->expired++;
        t->due = t->interval ? t->due + t->interval : 0;
    }
}

static bool has_expired(void) {
    for (int at = 0; at < TIMERS; at++) {
        if (virtual_timers[at].expired) return true;
    }
    return false;
}

static int open_virtual_timer(int at, clockid_t clock) {
    virtual_timers[at] = (struct virtual_timer){.clock = clock};
    return 0;
}

static int get_virtual_timer(int at, struct itimerspec *value) {
    const struct virtual_timer *t = &virtual_timers[at];
    nsec2timespec(&value->it_value, t->due ? t->due - virtual_time : 0);
    nsec2timespec(&value->it_interval, t->interval);
    return 0;
}

static int set_virtual_timer(int at, int flags, const struct itimerspec *value, struct itimerspec *old) {
    struct virtual_timer *t = &virtual_timers[at];
    step_if_explored(DO_SET_TIMER);
    if (old) get_virtual_timer(at, old);
    uint64_t time = timespec2nsec(&value->it_value);
    bool is_absolute = flags & TIMER_ABSTIME;
    t->due = is_absolute ? on_clock(t->clock, &value->it_value) : virtual_time + time;
    if (!time) t->due = 0;
    t->interval = timespec2nsec(&value->it_interval);
    t->expired = 0;
    return 0;
}

/* Ends a timer by its id, which may be wrong. */
static void close_virtual_timer(timer_t id) {
    step_if_explored(DO_SET_TIMER);
    if (id >= 1 && id <= TIMERS) virtual_timers[id - 1] = (struct virtual_timer){0};
}

/* Returns how often a timer has expired, and that it has no longer. */
static uint64_t take_expiries(int at) {
    uint64_t times = virtual_timers[at].expired;
    virtual_timers[at].expired = 0;
    return times;
}
