/* Waits in functions of the host, and the timeouts that TimerTimeout sets for them. Tested, not proved.
 *
 * The layer has the timeouts of messages. A timeout is of one call only, so a call of a message also uses up
 * the timeouts of this file (enter), and a wait of this file uses up the timeout of messages. */

/* The limit of a wait: a timeout, or none. */
struct limit {
    bool is_set;
    struct timespec until; /* by CLOCK_REALTIME, which most of the host's functions take */
};

/* Returns the time by a clock after some nanoseconds. */
static struct timespec time_after(clockid_t clock, uint64_t nanoseconds) {
    struct timespec time;
    read_clock(clock, &time);
    uint64_t left = (uint64_t)INT64_MAX - timespec2nsec(&time);
    nsec2timespec(&time, timespec2nsec(&time) + (nanoseconds < left ? nanoseconds : left));
    return time;
}

static bool is_before(const struct timespec *a, const struct timespec *b) {
    return a->tv_sec < b->tv_sec || (a->tv_sec == b->tv_sec && a->tv_nsec < b->tv_nsec);
}

/* Takes the timeout that the calling thread has set for its next call. Returns whether it has one for this
 * state, and sets *nanoseconds. */
static bool take_timeout(int state, uint64_t *nanoseconds) {
    int states = next_wait.states;
    if (!states) return false;
    next_wait.states = 0;
    if (states & MESSAGE_STATES) layer_TimerTimeout(CLOCK_MONOTONIC, 0, NULL, NULL, NULL);
    *nanoseconds = next_wait.time;
    return states & state;
}

static struct limit take_limit(int state) {
    uint64_t nanoseconds = 0;
    struct limit limit = {.is_set = take_timeout(state, &nanoseconds)};
    if (limit.is_set) limit.until = time_after(CLOCK_REALTIME, nanoseconds);
    return limit;
}

/* Uses up the timeout, in a call that has a limit of its own. That limit takes the timeout's place. */
static void drop_timeout(void) { take_limit(0); }

/* ---- sleeps */

/* Sleeps until a time of a clock. Returns 0 or an error. */
static int sleep_by_clock(clockid_t clock, const struct timespec *until) {
    return ordered_clock_nanosleep(clock, TIMER_ABSTIME, until, NULL);
}

/* Writes the time that is left of a sleep until a time. */
static void write_left(clockid_t clock, const struct timespec *until, struct timespec *left) {
    struct timespec now;
    read_clock(clock, &now);
    uint64_t end = timespec2nsec(until), time = timespec2nsec(&now);
    nsec2timespec(left, end > time ? end - time : 0);
}

int neutrino_clock_nanosleep(clockid_t clock, int flags, const struct timespec *time, struct timespec *left) {
    uint64_t nanoseconds = 0;
    if (!take_timeout(_NTO_TIMEOUT_NANOSLEEP, &nanoseconds)) return ordered_clock_nanosleep(clock, flags, time, left);
    bool is_wrong = !time || time->tv_sec < 0 || time->tv_nsec < 0 || time->tv_nsec >= 1000000000;
    if (is_wrong) return ordered_clock_nanosleep(clock, flags, time, left);
    bool is_absolute = flags & TIMER_ABSTIME;
    struct timespec until = is_absolute ? *time : time_after(clock, timespec2nsec(time));
    struct timespec limit = time_after(clock, nanoseconds);
    bool times_out = is_before(&limit, &until);
    int error = sleep_by_clock(clock, times_out ? &limit : &until);
    if (!error && times_out) error = ETIMEDOUT;
    if (error && left && !is_absolute) write_left(clock, &until, left);
    return error;
}

int neutrino_nanosleep(const struct timespec *time, struct timespec *left) {
    if (!next_wait.states) return ordered_nanosleep(time, left);
    int error = neutrino_clock_nanosleep(CLOCK_MONOTONIC, 0, time, left);
    return error ? fail(error) : 0;
}

unsigned neutrino_sleep(unsigned seconds) {
    struct timespec left = {0, 0}, time = {(time_t)seconds, 0};
    return neutrino_nanosleep(&time, &left) ? (unsigned)(left.tv_sec + (left.tv_nsec >= 500000000)) : 0;
}

int neutrino_usleep(useconds_t microseconds) {
    struct timespec time = {(time_t)(microseconds / 1000000), (long)(microseconds % 1000000) * 1000};
    return neutrino_nanosleep(&time, NULL);
}

unsigned delay(unsigned milliseconds) {
    struct timespec left = {0, 0}, time = {(time_t)(milliseconds / 1000), (long)(milliseconds % 1000) * 1000000};
    if (!neutrino_nanosleep(&time, &left)) return 0;
    return (unsigned)(left.tv_sec * 1000 + left.tv_nsec / 1000000);
}

/* ---- semaphores, mutexes, condition variables and joins */

static int wait_semaphore(sem_t *semaphore, const struct limit *limit) {
    return limit->is_set ? ordered_sem_timedwait(semaphore, &limit->until) : ordered_sem_wait(semaphore);
}

int neutrino_sem_wait(sem_t *semaphore) {
    struct limit limit = take_limit(_NTO_TIMEOUT_SEM);
    return wait_semaphore(semaphore, &limit);
}

int neutrino_sem_timedwait(sem_t *semaphore, const struct timespec *until) {
    drop_timeout();
    return ordered_sem_timedwait(semaphore, until);
}

int sem_timedwait_monotonic(sem_t *semaphore, const struct timespec *until) {
    drop_timeout();
    return neutrino_sem_clockwait(semaphore, CLOCK_MONOTONIC, until);
}

int neutrino_pthread_mutex_lock(pthread_mutex_t *mutex) {
    struct limit limit = take_limit(_NTO_TIMEOUT_MUTEX);
    return limit.is_set ? ordered_mutex_timedlock(mutex, &limit.until) : ordered_mutex_lock(mutex);
}

int neutrino_pthread_mutex_timedlock(pthread_mutex_t *mutex, const struct timespec *until) {
    drop_timeout();
    return ordered_mutex_timedlock(mutex, until);
}

int pthread_mutex_timedlock_monotonic(pthread_mutex_t *mutex, const struct timespec *until) {
    drop_timeout();
    return neutrino_pthread_mutex_clocklock(mutex, CLOCK_MONOTONIC, until);
}

int neutrino_pthread_cond_wait(pthread_cond_t *condition, pthread_mutex_t *mutex) {
    uint64_t nanoseconds = 0;
    if (!take_timeout(_NTO_TIMEOUT_CONDVAR, &nanoseconds)) return ordered_cond_wait(condition, mutex);
    struct timespec until = time_after(CLOCK_MONOTONIC, nanoseconds);
    return neutrino_pthread_cond_clockwait(condition, mutex, CLOCK_MONOTONIC, &until);
}

int neutrino_pthread_cond_timedwait(pthread_cond_t *condition, pthread_mutex_t *mutex, const struct timespec *until) {
    drop_timeout();
    return ordered_cond_timedwait(condition, mutex, until);
}

int neutrino_pthread_join(pthread_t thread, void **value) {
    struct limit limit = take_limit(_NTO_TIMEOUT_JOIN);
    return ordered_join(thread, value, limit.is_set ? &limit.until : NULL);
}

static bool is_time(const struct timespec *time) {
    return time->tv_sec >= 0 && time->tv_nsec >= 0 && time->tv_nsec < 1000000000;
}

int pthread_timedjoin(pthread_t thread, void **value, const struct timespec *until) {
    drop_timeout();
    return is_time(until) ? ordered_join(thread, value, until) : EINVAL;
}

int pthread_timedjoin_monotonic(pthread_t thread, void **value, const struct timespec *until) {
    struct timespec left;
    if (!is_time(until)) return EINVAL;
    write_left(CLOCK_MONOTONIC, until, &left);
    struct timespec end = time_after(CLOCK_REALTIME, timespec2nsec(&left));
    return pthread_timedjoin(thread, value, &end);
}
