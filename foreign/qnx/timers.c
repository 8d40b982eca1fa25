/* Timers, timeouts and clocks. Tested, not proved.
 *
 * A timer whose event is a pulse is a timerfd of the host. The front's own thread waits for it. Any other
 * timer is a timer of the host. */
#include <sys/epoll.h>
#include <sys/timerfd.h>

struct timer {
    bool is_used;
    int fd;      /* the timerfd of a timer of pulses, or -1 */
    void *hosts; /* the host's timer */
    clockid_t clock;
    int flags; /* the flags with which it was last set */
    _Atomic int overruns;
    _Atomic unsigned settings; /* the number of times that it was set */
    struct sigevent event;
};

static struct timer timers[TIMERS]; /* by id; the first id is 1 */
static int watched = -1;            /* the epoll of the front's own thread */

/* The host's own functions. The headers declare them with QNX's timer_t. */
int hosts_create(clockid_t id, struct sigevent *event, void **timer) __asm__("timer_create");
int hosts_settime(void *t, int flags, const struct itimerspec *value, struct itimerspec *old) __asm__("timer_settime");
int hosts_gettime(void *timer, struct itimerspec *value) __asm__("timer_gettime");
int hosts_getoverrun(void *timer) __asm__("timer_getoverrun");
int hosts_delete(void *timer) __asm__("timer_delete");

static struct timer *timer_of(timer_t id) {
    if (id >= 1 && id <= TIMERS && timers[id - 1].is_used) return &timers[id - 1];
    errno = EINVAL;
    return NULL;
}

/* Opens the timerfd of a timer of pulses. */
static int watch_timer(struct timer *new, int at) {
    new->fd = watched == -1 ? fail(EAGAIN) : timerfd_create(new->clock, TFD_CLOEXEC | TFD_NONBLOCK);
    if (new->fd == -1) return -1;
    if (exploring) return open_virtual_timer(at, new->clock);
    struct epoll_event event = {.events = EPOLLIN, .data.u32 = (uint32_t)at};
    if (!epoll_ctl(watched, EPOLL_CTL_ADD, new->fd, &event)) return 0;
    close(new->fd);
    return fail(EAGAIN);
}

/* Opens a timer of the host, with the event in the host's form. */
static int open_hosts_timer(struct timer *new) {
    struct sigevent hosts = new->event;
    hosts.sigev_notify = SIGEV_GET_TYPE(&hosts);
    if (hosts.sigev_notify == SIGEV_SIGNAL_CODE) hosts.sigev_notify = SIGEV_SIGNAL;
    if (hosts.sigev_notify == SIGEV_SIGNAL_THREAD) {
        hosts.sigev_notify = SIGEV_THREAD_ID;
        hosts._sigev_un._tid = gettid();
    }
    return hosts_create(new->clock, &hosts, &new->hosts);
}

int TimerCreate(clockid_t id, const struct sigevent *event) {
    static const struct sigevent alarms = {.sigev_notify = SIGEV_SIGNAL, .sigev_signo = SIGALRM};
    struct timer new = {.is_used = true, .fd = -1, .clock = id, .event = event ? *event : alarms};
    bool is_pulse = SIGEV_GET_TYPE(&new.event) == SIGEV_PULSE;
    int at = 0, error = is_pulse ? wrong_event(&new.event) : 0;
    if (error || enter()) return error ? fail(error) : -1;
    hold();
    while (at < TIMERS && timers[at].is_used) at++;
    int result = at == TIMERS ? fail(EAGAIN) : is_pulse ? watch_timer(&new, at) : open_hosts_timer(&new);
    if (!result) timers[at] = new;
    release();
    return result ? -1 : at + 1;
}

int neutrino_timer_create(clockid_t id, struct sigevent *event, timer_t *timer) {
    int made = timer ? TimerCreate(id, event) : fail(EFAULT);
    if (made == -1) return -1;
    *timer = made;
    return 0;
}

int neutrino_timer_settime(timer_t timer, int flags, const struct itimerspec *value, struct itimerspec *old) {
    struct timer *t = timer_of(timer);
    if (!t) return -1;
    t->flags = flags;
    if (t->fd == -1) return hosts_settime(t->hosts, flags, value, old);
    if (exploring) return set_virtual_timer(timer - 1, flags, value, old);
    int result = timerfd_settime(t->fd, flags & TIMER_ABSTIME ? TFD_TIMER_ABSTIME : 0, value, old);
    t->settings++;
    t->overruns = 0;
    return result;
}

int neutrino_timer_gettime(timer_t timer, struct itimerspec *value) {
    const struct timer *t = timer_of(timer);
    if (exploring && t && t->fd != -1) return get_virtual_timer(timer - 1, value);
    return !t ? -1 : t->fd != -1 ? timerfd_gettime(t->fd, value) : hosts_gettime(t->hosts, value);
}

int neutrino_timer_getoverrun(timer_t timer) {
    const struct timer *t = timer_of(timer);
    return !t ? -1 : t->fd != -1 ? t->overruns : hosts_getoverrun(t->hosts);
}

int TimerDestroy(timer_t id) {
    if (exploring) close_virtual_timer(id);
    hold();
    struct timer *t = timer_of(id);
    if (t && t->fd != -1) close(t->fd);
    else if (t) hosts_delete(t->hosts);
    if (t) t->is_used = false;
    release();
    return t ? 0 : -1;
}

static struct _itimer itimer_of(const struct itimerspec *time) {
    return (struct _itimer){timespec2nsec(&time->it_value), timespec2nsec(&time->it_interval)};
}

int TimerSettime(timer_t id, int flags, const struct _itimer *itime, struct _itimer *oitime) {
    struct itimerspec value, old;
    if (!itime) return fail(EFAULT);
    nsec2timespec(&value.it_value, itime->nsec);
    nsec2timespec(&value.it_interval, itime->interval_nsec);
    if (neutrino_timer_settime(id, flags, &value, &old)) return -1;
    if (oitime) *oitime = itimer_of(&old);
    return 0;
}

int TimerInfo(pid_t pid, timer_t id, int flags, struct _timer_info *info) {
    struct itimerspec left;
    if (pid && pid != getpid()) return fail(ESRCH);
    if (!info) return fail(EFAULT);
    for (; flags & _NTO_TIMER_SEARCH && id >= 1 && id <= TIMERS && !timers[id - 1].is_used; id++) continue;
    const struct timer *t = timer_of(id);
    if (!t || neutrino_timer_gettime(id, &left)) return -1;
    *info = (struct _timer_info){.otime = itimer_of(&left),
                                 .notify = t->event.sigev_notify,
                                 .clockid = t->clock,
                                 .overruns = (uint32_t)neutrino_timer_getoverrun(id),
                                 .event = t->event};
    info->itime = info->otime;
    info->flags = (info->otime.nsec ? _NTO_TI_ACTIVE : 0u) | (t->flags & TIMER_ABSTIME ? _NTO_TI_ABSOLUTE : 0u);
    return id;
}

/* Sends the pulses of a timer's expiries, and counts the pulses that it can't send, unless the timer was set
 * meanwhile. The front's own thread calls this. */
static void expire(struct timer *t) {
    uint64_t times = 0;
    hold();
    unsigned settings = t->settings;
    struct sigevent event = t->event;
    if (exploring) times = take_expiries((int)(t - timers));
    else if (!t->is_used || read(t->fd, &times, sizeof times) != sizeof times) times = 0;
    release();
    for (; times && !send_event_pulse(&event); times--) continue;
    hold();
    t->overruns = times < INT_MAX ? (int)times : INT_MAX;
    if (t->settings != settings) t->overruns = 0;
    release();
}

/* ---- clocks; no program can set them */

int ClockTime(clockid_t id, const uint64_t *new, uint64_t *old) {
    struct timespec time;
    if (neutrino_clock_gettime(id, &time)) return -1;
    if (old) *old = timespec2nsec(&time);
    return !new ? 0 : fail(id == CLOCK_REALTIME ? EPERM : EINVAL);
}

int ClockPeriod(clockid_t id, const struct _clockperiod *new, struct _clockperiod *old, int reserved) {
    struct timespec period;
    if (id != CLOCK_REALTIME || reserved || clock_getres(id, &period)) return fail(EINVAL);
    if (old) *old = (struct _clockperiod){(uint32_t)period.tv_nsec, 0};
    return new ? fail(EPERM) : 0;
}

/* ---- timeouts */

/* Returns the nanoseconds until a time of a clock, or fails. */
static int time_until(clockid_t id, uint64_t *time) {
    struct timespec now;
    if (read_clock(id, &now)) return -1;
    *time = *time > timespec2nsec(&now) ? *time - timespec2nsec(&now) : 0;
    return 0;
}

int TimerTimeout(clockid_t id, int flags, const struct sigevent *notify, const uint64_t *ntime, uint64_t *otime) {
    uint64_t time = ntime ? *ntime : 0, old = next_wait.states ? next_wait.time : 0;
    int states = flags & ~TIMER_ABSTIME;
    if (enter()) return -1;
    if (notify && SIGEV_GET_TYPE(notify) != SIGEV_UNBLOCK) return fail(EINVAL);
    if (states & ~(MESSAGE_STATES | HOST_STATES)) return fail(EINVAL);
    if (flags & TIMER_ABSTIME && time_until(id, &time)) return -1;
    if (layer_TimerTimeout(id, states & MESSAGE_STATES, NULL, &time, NULL)) return -1;
    if (otime) *otime = old;
    next_wait.states = states;
    next_wait.time = time;
    return 0;
}

int timer_timeout(clockid_t id, int flags, const struct sigevent *notify, const struct timespec *ntime,
                  struct timespec *otime) {
    uint64_t time = ntime ? timespec2nsec(ntime) : 0, old = 0;
    if (ntime && (ntime->tv_sec < 0 || ntime->tv_nsec < 0 || ntime->tv_nsec >= 1000000000)) return fail(EINVAL);
    if (TimerTimeout(id, flags, notify, ntime ? &time : NULL, &old)) return -1;
    if (otime) nsec2timespec(otime, old);
    return 0;
}
