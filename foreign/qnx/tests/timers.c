/* Timers and timeouts, with each of their errors. */
#include "tests.h"

static timer_t pulse_timer(int coid, int code, uint64_t first, long every) {
    struct sigevent event;
    struct itimerspec time = {.it_interval = {0, every}}, old;
    timer_t id;
    nsec2timespec(&time.it_value, first);
    SIGEV_PULSE_INIT(&event, coid, SIGEV_PULSE_PRIO_INHERIT, code, 11);
    check(timer_create(CLOCK_MONOTONIC, &event, &id) == 0 && timer_settime(id, 0, &time, &old) == 0);
    check(old.it_value.tv_sec == 0 && old.it_value.tv_nsec == 0);
    return id;
}

void pulse_timers(void) {
    struct _pulse pulse;
    struct itimerspec time, left;
    struct timespec now;
    int chid = ChannelCreate(0), coid = attach(chid);
    timer_t ticks = pulse_timer(coid, -9, 1000000, 10000000);
    for (int at = 0; at < 20; at++) {
        check(MsgReceivePulse(chid, &pulse, sizeof pulse, NULL) == 0 && pulse.code == -9);
        check(pulse.value.sival_int == 11 && timer_getoverrun(ticks) == 0);
    }
    check(timer_gettime(ticks, &time) == 0 && time.it_interval.tv_nsec == 10000000 && timer_delete(ticks) == 0);
    timer_t once = pulse_timer(coid, 3, 1000000000000, 0);
    check(clock_gettime(CLOCK_MONOTONIC, &now) == 0);
    time = (struct itimerspec){{0, 0}, now};
    /* The time is already over. */
    check(timer_settime(once, TIMER_ABSTIME, &time, &left) == 0 && left.it_value.tv_sec > 900);
    do check(MsgReceivePulse(chid, &pulse, sizeof pulse, NULL) == 0); /* a tick may have been under way */
    while (pulse.code == -9);
    check(pulse.code == 3 && timer_delete(once) == 0);
    set_timeout(_NTO_TIMEOUT_RECEIVE, 30000000);
    fails(MsgReceivePulse(chid, &pulse, sizeof pulse, NULL), ETIMEDOUT); /* no more ticks */
    ticks = pulse_timer(coid, 4, 1000000, 1000000);
    check(ConnectDetach(coid) == 0 && ChannelDestroy(chid) == 0);
    while (timer_getoverrun(ticks) == 0) usleep(100); /* it has no connection */
    check(timer_delete(ticks) == 0);
}

/* A timer that is set again begins without overruns, also if its pulses were being sent when it was set. */
void set_anew(void) {
    struct itimerspec never = {{0, 0}, {1000, 0}};
    int chid = ChannelCreate(0), coid = attach(chid);
    check(ConnectDetach(coid) == 0 && ChannelDestroy(chid) == 0);
    for (int turn = 0; turn < 20; turn++) {
        timer_t ticks = pulse_timer(coid, 4, 1000000, 1000000);
        while (timer_getoverrun(ticks) == 0) usleep(100); /* it has no connection */
        check(timer_settime(ticks, 0, &never, NULL) == 0 && timer_getoverrun(ticks) == 0);
        usleep(2000);
        check(timer_getoverrun(ticks) == 0 && timer_delete(ticks) == 0);
    }
}

/* A timer of pulses whose file is 0, since the program has closed that file. */
void file_0(void) {
    struct _pulse pulse;
    struct itimerspec left;
    int chid = ChannelCreate(0), coid = attach(chid), saved = dup(STDIN_FILENO);
    close(STDIN_FILENO);
    timer_t once = pulse_timer(coid, 3, 1000000, 0);
    check(MsgReceivePulse(chid, &pulse, sizeof pulse, NULL) == 0 && pulse.code == 3);
    check(timer_gettime(once, &left) == 0 && left.it_value.tv_nsec == 0 && timer_getoverrun(once) == 0);
    check(timer_delete(once) == 0 && dup(STDERR_FILENO) == STDIN_FILENO && close(STDIN_FILENO) == 0);
    if (saved != -1) check(dup2(saved, STDIN_FILENO) == STDIN_FILENO && close(saved) == 0);
    check(ConnectDetach(coid) == 0 && ChannelDestroy(chid) == 0);
}

static _Atomic int expired;

static void expire(int signo) { atomic_store(&expired, signo); }

static void expire_on_thread(union sigval value) { atomic_store(&expired, value.sival_int); }

static void expect_expiry(struct sigevent *event, int wanted) {
    struct itimerspec time = {{0, 0}, {0, 1000000}}, left;
    timer_t id;
    atomic_store(&expired, 0);
    check(timer_create(CLOCK_REALTIME, event, &id) == 0 && timer_gettime(id, &left) == 0);
    check(left.it_value.tv_nsec == 0 && timer_settime(id, 0, &time, NULL) == 0);
    while (atomic_load(&expired) != wanted) usleep(100);
    check(timer_getoverrun(id) >= 0 && timer_delete(id) == 0);
}

/* Timers with other events are the host's. */
void host_timers(void) {
    struct sigevent event;
    timer_t id;
    check(signal(SIGALRM, expire) != SIG_ERR && signal(SIGUSR1, expire) != SIG_ERR);
    expect_expiry(NULL, SIGALRM);
    memset(&event, 0, sizeof event);
    SIGEV_SIGNAL_INIT(&event, SIGUSR1);
    expect_expiry(&event, SIGUSR1);
    SIGEV_SIGNAL_CODE_INIT(&event, SIGUSR1, 1, 2);
    expect_expiry(&event, SIGUSR1);
    SIGEV_SIGNAL_THREAD_INIT(&event, SIGUSR1, 1, 2);
    expect_expiry(&event, SIGUSR1);
    memset(&event, 0, sizeof event);
    event.sigev_notify = SIGEV_THREAD;
    event.sigev_notify_function = expire_on_thread;
    event.sigev_value.sival_int = 99;
    expect_expiry(&event, 99);
    SIGEV_NONE_INIT(&event);
    check(timer_create(CLOCK_REALTIME, &event, &id) == 0 && timer_delete(id) == 0);
    check(signal(SIGALRM, SIG_DFL) == expire && signal(SIGUSR1, SIG_DFL) == expire);
}

void timer_errors(void) {
    static timer_t all[256];
    struct sigevent event;
    struct itimerspec time = {{0, 0}, {0, 1}}, wrong = {{0, 0}, {0, -1}};
    int chid = ChannelCreate(0), coid = attach(chid), lowest = dup(STDERR_FILENO);
    check(close(lowest) == 0);
    SIGEV_PULSE_INIT(&event, coid, 0, 1, 1);
    fails(timer_create(CLOCK_MONOTONIC, &event, &all[0]), EINVAL);
    SIGEV_PULSE_INIT(&event, coid, 1, 200, 1);
    fails(timer_create(CLOCK_MONOTONIC, &event, &all[0]), EINVAL);
    SIGEV_PULSE_INIT(&event, coid, 1, 1, 1);
    fails(timer_create(9999, &event, &all[0]), EINVAL);
    fails(timer_create(CLOCK_REALTIME, &event, NULL), EFAULT);
    for (int at = 0; at < 256; at++) check(timer_create(CLOCK_REALTIME, &event, &all[at]) == 0 && all[at] > 0);
    fails(timer_create(CLOCK_REALTIME, &event, &all[0]), EAGAIN);
    fails(timer_settime(all[3], 0, &wrong, NULL), EINVAL);
    for (int at = 0; at < 256; at++) check(timer_delete(all[at]) == 0);
    check(dup(STDERR_FILENO) == lowest && close(lowest) == 0); /* no file is left open */
    fails(timer_delete(all[5]), EINVAL);
    fails(timer_delete(0), EINVAL);
    fails(timer_delete(257), EINVAL);
    fails(timer_settime(all[5], 0, &time, NULL), EINVAL);
    fails(timer_gettime(all[5], &time), EINVAL);
    fails(timer_getoverrun(all[5]), EINVAL);
    check(ConnectDetach(coid) == 0 && ChannelDestroy(chid) == 0);
}

/* QNX's own calls, for the same timers. */
void timer_calls(void) {
    struct _pulse pulse;
    struct sigevent event;
    struct _timer_info info;
    struct _itimer time = {1000000000000, 2000000000}, old = {1, 1};
    int chid = ChannelCreate(0), coid = attach(chid), id;
    SIGEV_PULSE_INIT(&event, coid, 21, 7, 8);
    check((id = TimerCreate(CLOCK_MONOTONIC, &event)) > 0 && TimerSettime(id, 0, &time, &old) == 0);
    check(old.nsec == 0 && old.interval_nsec == 0 && TimerSettime(id, 0, &time, &old) == 0);
    check(old.nsec > 900000000000 && old.nsec <= time.nsec && old.interval_nsec == time.interval_nsec);
    check(TimerInfo(0, id, 0, &info) == id && info.otime.nsec > 900000000000 && info.otime.nsec <= time.nsec);
    check(info.otime.interval_nsec == 2000000000 && info.flags == _NTO_TI_ACTIVE && info.clockid == CLOCK_MONOTONIC);
    check(info.notify == SIGEV_PULSE && info.event.sigev_coid == coid && info.overruns == 0);
    timer_t alarm = TimerCreate_r(CLOCK_REALTIME, NULL);
    check(alarm > id && TimerInfo_r(getpid(), alarm, 0, &info) == alarm && info.notify == SIGEV_SIGNAL);
    check(info.event.sigev_signo == SIGALRM && info.flags == 0);
    returns_r(TimerDestroy_r(id), EOK);
    check(TimerInfo(0, id, _NTO_TIMER_SEARCH, &info) == alarm && TimerDestroy(alarm) == 0);
    fails(TimerInfo(0, id, _NTO_TIMER_SEARCH, &info), EINVAL);
    check((id = TimerCreate(CLOCK_MONOTONIC, &event)) > 0 && ClockTime(CLOCK_MONOTONIC, NULL, &time.nsec) == 0);
    time.interval_nsec = 0;
    returns_r(TimerSettime_r(id, TIMER_ABSTIME, &time, NULL), EOK);
    check(MsgReceivePulse(chid, &pulse, sizeof pulse, NULL) == 0 && pulse.code == 7 && pulse.value.sival_int == 8);
    check(TimerInfo(0, id, 0, &info) == id && info.flags == _NTO_TI_ABSOLUTE && info.otime.nsec == 0);
    fails(TimerSettime(id, 0, NULL, NULL), EFAULT);
    fails(TimerInfo(0, id, 0, NULL), EFAULT);
    fails(TimerInfo(getpid() + 1, id, 0, &info), ESRCH);
    check(TimerDestroy(id) == 0);
    fails(TimerDestroy(id), EINVAL);
    returns_r(TimerSettime_r(id, 0, &time, NULL), EINVAL);
    fails_r(TimerInfo_r(0, id, 0, &info), EINVAL);
    fails_r(TimerCreate_r(9999, &event), EINVAL);
    check(ConnectDetach(coid) == 0 && ChannelDestroy(chid) == 0);
}

/* Clocks of the processor time of the program and of threads. */
static void *of_threads(void *own) {
    uint64_t before = 0, after = 0, program = 0;
    int clock = ClockId(0, gettid()), whole = ClockId(getpid(), 0);
    check(clock != -1 && whole != -1 && ClockId(0, (int)pthread_self()) == clock);
    check(ClockTime(clock, NULL, &before) == 0);
    do check(ClockTime(clock, NULL, &after) == 0 && ClockTime(whole, NULL, &program) == 0);
    while (after == before);
    check(clock != whole && after < program / 2); /* the program has worked for 20 ms before this thread began */
    fails(ClockId(getpid() + 1, 0), ESRCH);
    fails(ClockId(getpid() + 1, gettid()), ESRCH);
    fails(ClockId(0, 60), ESRCH);
    return own;
}

void clocks(void) {
    struct _clockperiod period = {0, 1};
    struct timespec now;
    uint64_t time = 0, later = 0;
    check(clock_gettime(CLOCK_REALTIME, &now) == 0 && ClockTime(CLOCK_REALTIME, NULL, &time) == 0);
    check(time >= timespec2nsec(&now) && ClockTime(CLOCK_REALTIME, NULL, NULL) == 0);
    check(ClockTime(CLOCK_MONOTONIC, NULL, &time) == 0 && ClockTime(CLOCK_MONOTONIC, NULL, &later) == 0);
    check(later >= time && later < time + 1000000000000);
    fails(ClockTime(CLOCK_REALTIME, &time, &later), EPERM);
    fails(ClockTime(CLOCK_MONOTONIC, &time, &later), EINVAL);
    fails(ClockTime(9999, NULL, &later), EINVAL);
    returns_r(ClockTime_r(9999, NULL, &later), EINVAL);
    check(ClockPeriod(CLOCK_REALTIME, NULL, &period, 0) == 0 && period.nsec > 0 && period.fract == 0);
    fails(ClockPeriod(CLOCK_MONOTONIC, NULL, &period, 0), EINVAL);
    fails(ClockPeriod(CLOCK_REALTIME, NULL, &period, 1), EINVAL);
    returns_r(ClockPeriod_r(CLOCK_REALTIME, &period, NULL, 0), EPERM);
    do check(ClockTime(ClockId(0, 0), NULL, &time) == 0);
    while (time < 20000000);
    result_of(start(of_threads, NULL));
}

void timeouts(void) {
    char room[8];
    uint64_t left = 0, time;
    struct timespec now, until, old;
    int chid = ChannelCreate(0), coid = attach(chid);
    set_timeout(_NTO_TIMEOUT_RECEIVE, 1000000);
    fails(MsgReceive(chid, room, 8, NULL), ETIMEDOUT);
    set_timeout(_NTO_TIMEOUT_SEND | _NTO_TIMEOUT_REPLY, 1000000);
    fails(MsgSend(coid, "", 1, NULL, 0), ETIMEDOUT);
    set_timeout(_NTO_TIMEOUT_RECEIVE, 5000);
    fails_r(MsgReceive_r(chid, room, 8, NULL), ETIMEDOUT);
    time = 123456;
    returns_r(TimerTimeout_r(CLOCK_REALTIME, _NTO_TIMEOUT_RECEIVE, NULL, &time, &left), EOK);
    check(left == 0 && TimerTimeout(CLOCK_REALTIME, 0, NULL, NULL, &left) == 0 && left == 123456);
    check(clock_gettime(CLOCK_MONOTONIC, &now) == 0);
    until = (struct timespec){now.tv_sec, now.tv_nsec};
    check(timer_timeout(CLOCK_MONOTONIC, _NTO_TIMEOUT_RECEIVE | TIMER_ABSTIME, NULL, &until, &old) == 0);
    fails(MsgReceive(chid, room, 8, NULL), ETIMEDOUT);
    until.tv_sec += 1000;
    returns_r(timer_timeout_r(CLOCK_MONOTONIC, _NTO_TIMEOUT_RECEIVE | TIMER_ABSTIME, NULL, &until, NULL), EOK);
    check(timer_timeout(CLOCK_MONOTONIC, 0, NULL, NULL, &old) == 0 && old.tv_sec > 990 && old.tv_sec <= 1000);
    check(ConnectDetach(coid) == 0 && ChannelDestroy(chid) == 0);
}

static void *wait_for_go(void *argument) {
    while (!atomic_load((_Atomic int *)argument)) usleep(100);
    return (void *)5;
}

/* Timeouts of pthread_join, with only its own state, or with the states of messages too. */
void join_timeouts(void) {
    _Atomic int go = 0;
    void *value = NULL;
    struct timespec time = {0, 1000000};
    pthread_t thread = start(wait_for_go, &go);
    set_timeout(_NTO_TIMEOUT_JOIN, 1000000);
    check(pthread_join(thread, &value) == ETIMEDOUT);
    check(timer_timeout(CLOCK_MONOTONIC, _NTO_TIMEOUT_JOIN | _NTO_TIMEOUT_SEND, NULL, &time, NULL) == 0);
    check(pthread_join(thread, &value) == ETIMEDOUT);
    set_timeout(_NTO_TIMEOUT_JOIN, 1000000);
    set_timeout(0, 0);
    atomic_store(&go, 1);
    check(pthread_join(thread, &value) == 0 && value == (void *)5); /* without a timeout */
}

static void *go_later(void *go) {
    usleep(50000);
    atomic_store((_Atomic int *)go, 1);
    return NULL;
}

/* Joins with a limit of their own, which takes the place of a timeout. */
void timed_joins(void) {
    _Atomic int go = 0;
    void *value = NULL;
    uint64_t real, monotonic;
    struct timespec limit, wrong = {1, 1000000000};
    pthread_t thread = start(wait_for_go, &go);
    check(ClockTime(CLOCK_REALTIME, NULL, &real) == 0 && ClockTime(CLOCK_MONOTONIC, NULL, &monotonic) == 0);
    nsec2timespec(&limit, real + 1000000);
    set_timeout(_NTO_TIMEOUT_JOIN, 1000000000000);
    check(pthread_timedjoin(thread, &value, &limit) == ETIMEDOUT);
    nsec2timespec(&limit, monotonic + 1000000);
    set_timeout(_NTO_TIMEOUT_JOIN | _NTO_TIMEOUT_NANOSLEEP, 1000000000000);
    check(pthread_timedjoin_monotonic(thread, &value, &limit) == ETIMEDOUT);
    check(TimerTimeout(CLOCK_MONOTONIC, 0, NULL, NULL, &real) == 0 && real == 0);
    check(pthread_timedjoin(thread, &value, &wrong) == EINVAL);
    check(pthread_timedjoin_monotonic(thread, &value, &wrong) == EINVAL);
    nsec2timespec(&limit, monotonic + 1000000000000);
    pthread_t other = start(go_later, &go);
    check(pthread_timedjoin_monotonic(thread, &value, &limit) == 0 && value == (void *)5 && result_of(other) == 0);
}

void timeout_errors(void) {
    struct sigevent event;
    uint64_t time = 1;
    struct timespec wrong = {0, 1000000000};
    SIGEV_PULSE_INIT(&event, 1, 1, 1, 1);
    fails(TimerTimeout(CLOCK_MONOTONIC, _NTO_TIMEOUT_SEND, &event, &time, NULL), EINVAL);
    SIGEV_UNBLOCK_INIT(&event);
    check(TimerTimeout(CLOCK_MONOTONIC, 0, &event, &time, NULL) == 0);
    fails(TimerTimeout(CLOCK_MONOTONIC, _NTO_TIMEOUT_SIGSUSPEND, &event, &time, NULL), EINVAL);
    fails(TimerTimeout(CLOCK_MONOTONIC, _NTO_TIMEOUT_SIGWAITINFO, &event, &time, NULL), EINVAL);
    fails(TimerTimeout(CLOCK_MONOTONIC, _NTO_TIMEOUT_SEND | _NTO_TIMEOUT_SIGWAITINFO, NULL, &time, NULL), EINVAL);
    fails(TimerTimeout(CLOCK_MONOTONIC, _NTO_TIMEOUT_SEND | 0x40000000, &event, &time, NULL), EINVAL);
    check(TimerTimeout(CLOCK_MONOTONIC, _NTO_TIMEOUT_SEND | _NTO_TIMEOUT_MUTEX, &event, &time, NULL) == 0);
    check(TimerTimeout(CLOCK_MONOTONIC, 0, &event, &time, NULL) == 0);
    fails(TimerTimeout(CLOCK_PROCESS_CPUTIME_ID, _NTO_TIMEOUT_SEND, NULL, &time, NULL), EINVAL);
    fails(TimerTimeout(9999, _NTO_TIMEOUT_SEND | TIMER_ABSTIME, NULL, &time, NULL), EINVAL);
    returns_r(TimerTimeout_r(9999, _NTO_TIMEOUT_SEND, NULL, &time, NULL), EINVAL);
    fails(timer_timeout(CLOCK_MONOTONIC, _NTO_TIMEOUT_SEND, NULL, &wrong, NULL), EINVAL);
    nsec2timespec(&wrong, 5000000001);
    check(wrong.tv_sec == 5 && wrong.tv_nsec == 1 && timespec2nsec(&wrong) == 5000000001);
    wrong = (struct timespec){-1, 0};
    returns_r(timer_timeout_r(CLOCK_MONOTONIC, _NTO_TIMEOUT_SEND, NULL, &wrong, NULL), EINVAL);
}
