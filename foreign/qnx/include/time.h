/* The host's time.h, with QNX's timer_t. A timer of SIGEV_PULSE sends a pulse over its connection at each
 * expiry; timer_getoverrun counts the pulses that the kernel refused. A timer of another event is the host's.
 * The errors of timer_create: EAGAIN (256 timers), EINVAL (the pulse's code or priority, or a clock that has
 * no timers), EFAULT (no place for the id), and the errors of a first call. nanosleep and clock_nanosleep end
 * with ETIMEDOUT after a TimerTimeout with _NTO_TIMEOUT_NANOSLEEP. */
#pragma GCC system_header
#ifndef BALSAEUCHRE_QNX_NO_WRAPPERS
#pragma redefine_extname timer_create neutrino_timer_create
#pragma redefine_extname timer_settime neutrino_timer_settime
#pragma redefine_extname timer_gettime neutrino_timer_gettime
#pragma redefine_extname timer_getoverrun neutrino_timer_getoverrun
#pragma redefine_extname timer_delete TimerDestroy
#pragma redefine_extname clock_gettime neutrino_clock_gettime
#pragma redefine_extname clock_nanosleep neutrino_clock_nanosleep
#pragma redefine_extname nanosleep neutrino_nanosleep
#pragma redefine_extname time neutrino_time
#endif
#include_next <time.h>
#if defined CLOCK_MONOTONIC && !defined BALSAEUCHRE_QNX_TIME_H
#define BALSAEUCHRE_QNX_TIME_H
#ifdef __cplusplus
extern "C" {
#endif

#define CLOCK_SOFTTIME CLOCK_REALTIME
typedef char neutrino_timer_t_is_qnxs[sizeof(timer_t) == sizeof(int) ? 1 : -1];

/* Convert a time from nanoseconds, and to nanoseconds. */
static inline void nsec2timespec(struct timespec *time, unsigned long nanoseconds) {
    time->tv_sec = (time_t)(nanoseconds / 1000000000u);
    time->tv_nsec = (long)(nanoseconds % 1000000000u);
}

static inline unsigned long timespec2nsec(const struct timespec *time) {
    return (unsigned long)time->tv_sec * 1000000000u + (unsigned long)time->tv_nsec;
}

/* Keep the processor busy for a time. Return EOK. */
static inline int nanospin_ns(unsigned long nanoseconds) {
    struct timespec now;
    clock_gettime(CLOCK_MONOTONIC, &now);
    unsigned long until = timespec2nsec(&now) + nanoseconds;
    do clock_gettime(CLOCK_MONOTONIC, &now);
    while (timespec2nsec(&now) < until);
    return 0;
}

static inline int nanospin(const struct timespec *time) { return nanospin_ns(timespec2nsec(time)); }

struct sigevent;

/* TimerTimeout of sys/neutrino.h, with times as struct timespec. EINVAL also for an invalid time. */
int timer_timeout(clockid_t id, int flags, const struct sigevent *notify, const struct timespec *ntime,
                  struct timespec *otime);
int timer_timeout_r(clockid_t id, int flags, const struct sigevent *notify, const struct timespec *ntime,
                    struct timespec *otime);

#ifdef __cplusplus
}
#endif
#endif
