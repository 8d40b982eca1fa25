/* Clocks and sleeps of an explored run. Tested, not proved.
 *
 * Time begins at 1 s, and the calendar in 2026. */
#include <sys/time.h>

enum { CALENDAR = 1767225600, CLOCK_READS = 16, POLL = 1000000 };

/* Returns the calendar's begin for a clock that has the calendar's time, or 0. */
static uint64_t begin_of(clockid_t id) {
    bool is_calendar = id == CLOCK_REALTIME || id == CLOCK_REALTIME_COARSE || id == CLOCK_TAI;
    return is_calendar ? CALENDAR * 1000000000ull : 0;
}

static bool is_virtual(clockid_t id) {
    return begin_of(id) || id == CLOCK_MONOTONIC || id == CLOCK_MONOTONIC_RAW || id == CLOCK_MONOTONIC_COARSE ||
           id == CLOCK_BOOTTIME;
}

/* Returns the time of the run for a time of a clock. A time that has passed is 1, since 0 is none. */
static uint64_t on_clock(clockid_t id, const struct timespec *time) {
    uint64_t at = timespec2nsec(time), begin = begin_of(id);
    return at > begin ? at - begin : 1;
}

static bool never(const struct task *t) {
    (void)t;
    return false;
}

/* Sleeps until a time. Returns whether a signal's handler has ended the sleep. */
static bool sleep_to(uint64_t until) {
    me->is_signalled = false;
    step_until(DO_SLEEP, &(struct about){.task = index_of(me)}, &(struct wait){never, NULL, until});
    if (me->is_cancelled) pthread_testcancel();
    return me->is_signalled;
}

/* A program that reads the clock again and again waits for a time: it sleeps a little between the reads. */
static void note_clock_read(void) {
    if (++me->clock_reads <= CLOCK_READS) return;
    sleep_to(virtual_time + POLL);
    me->clock_reads = CLOCK_READS;
}

/* Reads a clock for the front itself. */
static int read_clock(clockid_t id, struct timespec *time) {
    if (!explores() || !is_virtual(id)) return clock_gettime(id, time);
    nsec2timespec(time, begin_of(id) + virtual_time);
    return 0;
}

int neutrino_clock_gettime(clockid_t id, struct timespec *time) {
    if (explores() && is_virtual(id)) note_clock_read();
    return read_clock(id, time);
}

time_t neutrino_time(time_t *time_out) {
    if (!explores()) return time(time_out);
    note_clock_read();
    time_t now = CALENDAR + (time_t)(virtual_time / 1000000000u);
    if (time_out) *time_out = now;
    return now;
}

int neutrino_gettimeofday(struct timeval *restrict time, void *restrict zone) {
    if (!explores()) return gettimeofday(time, zone);
    note_clock_read();
    *time = (struct timeval){CALENDAR + (time_t)(virtual_time / 1000000000u), virtual_time % 1000000000u / 1000};
    return 0;
}

static int ordered_nanosleep(const struct timespec *time, struct timespec *left) {
    if (!explores()) return nanosleep(time, left);
    if (left) *left = (struct timespec){0, 0};
    return sleep_to(virtual_time + timespec2nsec(time)) ? fail(EINTR) : 0;
}

static int ordered_clock_nanosleep(clockid_t id, int flags, const struct timespec *time, struct timespec *left) {
    if (!explores() || !is_virtual(id)) return clock_nanosleep(id, flags, time, left);
    bool is_absolute = flags & TIMER_ABSTIME;
    if (left && !is_absolute) *left = (struct timespec){0, 0};
    return sleep_to(is_absolute ? on_clock(id, time) : virtual_time + timespec2nsec(time)) ? EINTR : 0;
}

int neutrino_sched_yield(void) {
    if (!explores()) return sched_yield();
    step_if_explored(DO_YIELD);
    return 0;
}
