/* Threads: priorities, places in the kernel, ends, forks. */
#include "tests.h"

#include <sys/wait.h>

static void *answer_priority(void *argument) {
    (void)argument;
    return (void *)(intptr_t)getprio(0);
}

static void *answer_policy(void *argument) {
    (void)argument;
    return (void *)(intptr_t)SchedGet(0, 0, NULL);
}

static void *hold_still(void *argument) {
    while (atomic_load((_Atomic int *)argument) == 0) usleep(100);
    return (void *)(intptr_t)getprio(0);
}

void priorities(void) {
    struct sched_param param = {.sched_priority = 44}, none = {.sched_priority = 0}, over = {.sched_priority = 256};
    _Atomic int go = 0;
    int policy = -1;
    check(SchedSet(0, 0, SCHED_FIFO, &param) == 0 && SchedGet(0, 0, &param) == SCHED_FIFO);
    check(param.sched_curpriority == 44);
    check(SchedSet(getpid(), 1, SCHED_RR, &param) == 0 && SchedGet_r(getpid(), 1, NULL) == SCHED_RR);
    check(SchedSet(0, (int)pthread_self(), SCHED_RR, &param) == 0 && getprio(0) == 44 && setprio(0, 43) == 44);
    check(result_of(start(answer_priority, NULL)) == 43); /* the creator's priority */
    fails(SchedSet(getpid() + 1, 0, SCHED_RR, &param), ESRCH);
    fails(SchedSet(0, 55, SCHED_RR, &param), ESRCH);
    fails(SchedSet(0, 61, SCHED_RR, &param), ESRCH);
    fails(SchedSet(0, 0, SCHED_RR, NULL), EFAULT);
    fails(SchedSet(0, 0, SCHED_RR, &none), EINVAL);
    returns_r(SchedSet_r(0, 0, SCHED_RR, &over), EINVAL);
    fails(SchedGet(getpid() + 1, 0, &param), ESRCH);
    fails(SchedGet(0, -1, &param), ESRCH);
    fails_r(SchedGet_r(0, 77, &param), ESRCH);
    fails(getprio(getpid() + 1), ESRCH);
    fails(setprio(getpid() + 1, 3), ESRCH);
    fails(setprio(0, 0), EINVAL);
    check(SchedYield() == 0);
    returns_r(SchedYield_r(), EOK);
    check(pthread_getschedparam(pthread_self(), &policy, &param) == 0 && policy == SCHED_RR);
    check(param.sched_priority == 43 && pthread_setschedprio(pthread_self(), 10) == 0 && getprio(0) == 10);
    check(pthread_setschedparam(pthread_self(), SCHED_FIFO, &none) == EINVAL);
    param.sched_priority = 9;
    check(SchedSet(0, 0, SCHED_FIFO, &param) == 0 && SchedSet(0, 0, SCHED_NOCHANGE, &param) == 0);
    check(pthread_getschedparam(0, &policy, &param) == 0 && policy == SCHED_FIFO && param.sched_priority == 9);
    check(pthread_setschedprio(0, 10) == 0 && getprio(0) == 10 && SchedGet(0, 0, NULL) == SCHED_FIFO);
    pthread_t thread = start(hold_still, &go); /* the thread has made no call */
    check(pthread_setschedprio(thread, 0) == EINVAL && pthread_setschedprio(thread, 256) == EINVAL);
    check(pthread_setschedprio(thread, 66) == 0 && pthread_getschedparam(thread, &policy, &param) == 0);
    check(param.sched_priority == 66);
    atomic_store(&go, 1);
    check(result_of(thread) == 66);
    check(pthread_setschedprio(thread, 6) == ESRCH && pthread_getschedparam(thread, &policy, &param) == ESRCH);
    check(pthread_setschedparam(thread, SCHED_RR, &param) == ESRCH);
}

static void *send_it(void *coid) { return (void *)MsgSend(*(int *)coid, NULL, 0, NULL, 0); }

/* A receiver has its client's priority, in addition to its own. */
void inherited(void) {
    struct sched_param param;
    struct _msg_info info;
    int chid = ChannelCreate(0), coid = attach(chid), policy;
    check(setprio(0, 20) == 10);
    pthread_t client = start(send_it, &coid);
    check(setprio(0, 9) == 20);
    int rcvid = MsgReceive(chid, NULL, 0, &info);
    check(rcvid > 0 && info.priority == 20 && info.tid == 2 && getprio(0) == 20);
    check(SchedGet(0, 0, &param) != -1 && param.sched_priority == 9 && param.sched_curpriority == 20);
    check(pthread_getschedparam(pthread_self(), &policy, &param) == 0 && param.sched_priority == 9);
    check(MsgReply(rcvid, 5, NULL, 0) == 0 && result_of(client) == 5);
    check(setprio(0, 10) == 20 && ConnectDetach(coid) == 0 && ChannelDestroy(chid) == 0);
    check(SchedGet(0, 0, &param) != -1 && param.sched_priority == 10 && param.sched_curpriority == 10);
}

static void *answer_tid(void *argument) {
    (void)argument;
    return (void *)(intptr_t)gettid();
}

/* The host's functions that take a pid. They work on the calling thread. */
void policies(void) {
    struct sched_param param = {.sched_priority = 200}, none = {.sched_priority = 0};
    struct _sched_info info;
    check(SchedInfo(0, SCHED_FIFO, &info) == 0 && info.priority_min == 1 && info.priority_max == 255);
    check(SchedInfo_r(getpid(), SCHED_OTHER, &info) == EOK && info.interval == 0 && info.priority_priv > 255);
    fails(SchedInfo(getpid() + 1, SCHED_RR, &info), ESRCH);
    fails(SchedInfo(0, -1, &info), EINVAL);
    returns_r(SchedInfo_r(0, SCHED_RR, NULL), EFAULT);
    check(gettid() == 1 && result_of(start(answer_tid, NULL)) == 2);
    for (int policy = SCHED_OTHER; policy <= SCHED_RR; policy++)
        check(sched_get_priority_min(policy) == 1 && sched_get_priority_max(policy) == 255);
    fails(sched_get_priority_min(-1), EINVAL);
    fails(sched_get_priority_max(-1), EINVAL);
    check(SchedSet(0, 0, SCHED_RR, &param) == 0 && sched_setscheduler(0, SCHED_FIFO, &param) == SCHED_RR);
    check(sched_getscheduler(getpid()) == SCHED_FIFO);
    param.sched_priority = 10;
    check(sched_setparam(0, &param) == 0 && sched_getparam(0, &none) == 0 && none.sched_curpriority == 10);
    check(sched_setscheduler(0, SCHED_RR, &param) == SCHED_FIFO && sched_getscheduler(0) == SCHED_RR);
    none.sched_priority = 0;
    fails(sched_setparam(0, &none), EINVAL);
    fails(sched_setscheduler(0, SCHED_RR, &none), EINVAL);
    fails(sched_setparam(getpid() + 1, &param), ESRCH);
    fails(sched_getparam(getpid() + 1, &param), ESRCH);
    fails(sched_setscheduler(getpid() + 1, SCHED_RR, &param), ESRCH);
    fails(sched_getscheduler(getpid() + 1), ESRCH);
}

/* ThreadCtl: names, and the commands that change nothing. */
void controls(void) {
    union {
        struct _thread_name name;
        char room[sizeof(struct _thread_name) + 32];
    } data = {.name = {3, 0, ""}};
    char *text = data.name.name_buf, name[16];
    int mask = 1;
    memcpy(text, "abcdef", 7);
    check(ThreadCtl(_NTO_TCTL_NAME, &data) == 0 && strcmp(text, "abcdef") == 0);
    check(pthread_getname_np(pthread_self(), name, sizeof name) == 0 && strcmp(name, "abc") == 0);
    data.name.new_name_len = -1;
    data.name.old_name_len = 32;
    returns_r(ThreadCtl_r(_NTO_TCTL_NAME, &data), EOK);
    check(strcmp(text, "abc") == 0);
    data.name.new_name_len = 20;
    data.name.old_name_len = 3;
    memcpy(text, "longer than 15 bytes", 20);
    check(ThreadCtl(_NTO_TCTL_NAME, &data) == 0 && strcmp(text, "ab") == 0);
    check(pthread_getname_np(pthread_self(), name, sizeof name) == 0 && strcmp(name, "longer than 15 ") == 0);
    data.name.new_name_len = 0;
    data.name.old_name_len = 32;
    check(ThreadCtl(_NTO_TCTL_NAME, &data) == 0 && strcmp(text, "longer than 15 ") == 0);
    check(pthread_getname_np(pthread_self(), name, sizeof name) == 0 && !*name);
    data.name.new_name_len = 101;
    fails(ThreadCtl(_NTO_TCTL_NAME, &data), E2BIG);
    fails(ThreadCtl(_NTO_TCTL_NAME, NULL), EFAULT);
    fails(ThreadCtl(1000, &data), EINVAL);
    returns_r(ThreadCtl_r(0, &data), EINVAL);
    check(ThreadCtl(_NTO_TCTL_IO, NULL) == 0 && ThreadCtl(_NTO_TCTL_RUNMASK, &mask) == 0 && mask == 1);
    check(pthread_setname_np(pthread_self(), "tests") == 0);
}

void attributes(void) {
    pthread_attr_t attributes, copy;
    pthread_t thread;
    struct sched_param param = {.sched_priority = 0};
    check(pthread_attr_init(&attributes) == 0);
    check(pthread_attr_setschedparam(&attributes, &param) == EINVAL);
    param.sched_priority = 256;
    check(pthread_attr_setschedparam(&attributes, &param) == EINVAL);
    param.sched_priority = 27;
    check(pthread_attr_setschedparam(&attributes, &param) == 0);
    /* The priority is inherited. */
    check(pthread_create(&thread, &attributes, answer_priority, NULL) == 0 && result_of(thread) == 10);
    check(pthread_attr_setinheritsched(&attributes, PTHREAD_EXPLICIT_SCHED) == 0);
    check(pthread_attr_setschedpolicy(&attributes, SCHED_FIFO) == 0);
    check(pthread_create(&thread, &attributes, answer_priority, NULL) == 0 && result_of(thread) == 27);
    check(pthread_create(&thread, &attributes, answer_policy, NULL) == 0 && result_of(thread) == SCHED_FIFO);
    param.sched_priority = 200;
    check(pthread_attr_setschedparam(&attributes, &param) == 0);
    check(pthread_attr_setstacksize(&attributes, 1 << 20) == 0);
    check(pthread_create(&thread, &attributes, answer_priority, NULL) == 0 && result_of(thread) == 200);
    copy = attributes;
    param.sched_priority = 99;
    check(pthread_attr_setschedparam(&attributes, &param) == 0 && pthread_attr_getschedparam(&attributes, &param) == 0);
    check(param.sched_priority == 99 && pthread_attr_getschedparam(&copy, &param) == 0 && param.sched_priority == 200);
    check(pthread_create(&thread, &attributes, answer_priority, NULL) == 0 && result_of(thread) == 99);
    check(pthread_attr_setdetachstate(&attributes, PTHREAD_CREATE_DETACHED) == 0);
    check(pthread_create(NULL, &attributes, answer_priority, NULL) == 0);
    check(pthread_attr_destroy(&attributes) == 0);
}

static _Atomic int arrived;

static void *hold_seat(void *argument) {
    int priority = getprio(0), error = errno;
    atomic_fetch_add(&arrived, 1);
    while (atomic_load((_Atomic int *)argument) == 0) usleep(1000);
    return (void *)(intptr_t)(priority == -1 ? -error : priority);
}

/* There are 60 places, and the 61st thread that makes a call gets none. */
void seats(void) {
    enum { MANY = 70 };
    _Atomic int go = 0;
    pthread_t threads[MANY];
    int refused = 0;
    atomic_store(&arrived, 0);
    for (int at = 0; at < MANY; at++) threads[at] = start(hold_seat, &go);
    while (atomic_load(&arrived) < MANY) usleep(1000);
    atomic_store(&go, 1);
    for (int at = 0; at < MANY; at++) refused += result_of(threads[at]) == -EAGAIN;
    check(refused == MANY - 59);
    check(result_of(start(answer_priority, NULL)) == 10);
}

/* Threads that make no call don't keep other threads from the kernel. */
void reserved(void) {
    enum { MANY = 80 };
    _Atomic int go = 0;
    pthread_t threads[MANY];
    check(setprio(0, 33) == 10);
    for (int at = 0; at < MANY; at++) threads[at] = start(hold_still, &go);
    check(result_of(start(answer_priority, NULL)) == 10); /* it takes a place reserved for another thread */
    for (int at = 0; at < 70; at++) check(result_of(start(answer_priority, NULL)) == 33);
    atomic_store(&go, 1);
    for (int at = 0; at < MANY; at++) result_of(threads[at]);
    check(setprio(0, 10) == 33);
}

/* A thread that frees the memory in which its creator has its id. */
struct life {
    pthread_t id;
    _Atomic int *ends;
};

static void *end_life(void *argument) {
    struct life *life = argument;
    check(pthread_equal(life->id, pthread_self()));
    _Atomic int *ends_of_all = life->ends;
    check(pthread_detach(life->id) == 0);
    memset(life, 0, sizeof *life);
    free(life);
    atomic_fetch_add(ends_of_all, 1);
    return NULL;
}

/* A new thread finds its id in its creator's place for it. Nothing writes that place once the thread's
 * function has begun. */
void created(void) {
    _Atomic int ended = 0;
    for (int turn = 1; turn <= 5 * rounds; turn++) {
        struct life *life = calloc(1, sizeof *life);
        check(life);
        life->ends = &ended;
        check(pthread_create(&life->id, NULL, end_life, life) == 0);
        while (atomic_load(&ended) < turn) sched_yield();
    }
}

static void *do_nothing(void *argument) { return argument; }

static void expect_death(int chid, int code, int value) {
    struct _pulse pulse;
    check(MsgReceivePulse(chid, &pulse, sizeof pulse, NULL) == 0 && pulse.code == code);
    check(value < 0 || pulse.value.sival_int == value);
}

void deaths(void) {
    struct _pulse pulse;
    int chid = ChannelCreate(_NTO_CHF_THREAD_DEATH | _NTO_CHF_DISCONNECT);
    int other = ChannelCreate(_NTO_CHF_COID_DISCONNECT);
    int gone = ChannelCreate(_NTO_CHF_COID_DISCONNECT), first = attach(gone), second = attach(gone), own = attach(chid);
    result_of(start(do_nothing, NULL));
    expect_death(chid, _PULSE_CODE_THREADDEATH, 2);
    result_of(start(answer_priority, NULL));
    expect_death(chid, _PULSE_CODE_THREADDEATH, 2);
    check(ConnectDetach(own) == 0 && ChannelDestroy(gone) == 0);
    check(MsgReceivePulse(chid, &pulse, sizeof pulse, NULL) == 0 && pulse.code == _PULSE_CODE_DISCONNECT);
    int coids[2];
    for (int at = 0; at < 2; at++) {
        check(MsgReceivePulse(other, &pulse, sizeof pulse, NULL) == 0 && pulse.code == _PULSE_CODE_COIDDEATH);
        coids[at] = pulse.value.sival_int;
    }
    check((coids[0] == first && coids[1] == second) || (coids[0] == second && coids[1] == first));
    check(ConnectDetach(first) == 0 && ConnectDetach(second) == 0 && ChannelDestroy(other) == 0);
    for (int at = 0; at < 1030; at++) result_of(start(do_nothing, NULL)); /* more than can be queued */
    for (int at = 0; at < 1024; at++) expect_death(chid, _PULSE_CODE_THREADDEATH, -1);
    check(ChannelDestroy(chid) == 0);
}

static _Atomic int goes_on;

static void *call_on(void *argument) {
    while (atomic_load(&goes_on)) check(getprio(0) == 10);
    return argument;
}

static void in_the_child(int chid, int coid) {
    struct _pulse pulse;
    struct sigevent event;
    timer_t id;
    int state;
    alarm(HANGS);
    check(pthread_setcancelstate(PTHREAD_CANCEL_ENABLE, &state) == 0 && state == PTHREAD_CANCEL_ENABLE);
    fails(MsgReceivePulse(chid + 64, &pulse, sizeof pulse, NULL), ESRCH);
    fails(MsgSendPulse(coid, 1, 1, 0), EBADF);
    int own = ChannelCreate(_NTO_CHF_THREAD_DEATH), over = attach(own);
    check(own > 0 && MsgSendPulse(over, 1, -1, 3) == 0 && MsgReceivePulse(own, &pulse, sizeof pulse, NULL) == 0);
    check(pulse.value.sival_int == 3);
    SIGEV_PULSE_INIT(&event, over, 1, 5, 1);
    struct itimerspec time = {{0, 0}, {0, 1000}};
    check(timer_create(CLOCK_MONOTONIC, &event, &id) == 0 && timer_settime(id, 0, &time, NULL) == 0);
    check(MsgReceivePulse(own, &pulse, sizeof pulse, NULL) == 0 && pulse.code == 5);
    result_of(start(answer_priority, NULL));
    expect_death(own, _PULSE_CODE_THREADDEATH, 2);
    name_attach_t *name = name_attach(NULL, "of the child", 0);
    check(name && name_detach(name, 0) == 0);
    _exit(0);
}

static pthread_barrier_t together;

static void *make_timer(void *argument) {
    struct sigevent event;
    timer_t id;
    SIGEV_PULSE_INIT(&event, 1, 10, 1, 1);
    pthread_barrier_wait(&together);
    check(timer_create(CLOCK_MONOTONIC, &event, &id) == 0);
    return argument;
}

/* Sends a message to a channel of its own. Nobody receives it, and the call times out. */
static void *send_to_itself(void *argument) {
    uint64_t time = 100000; /* nanoseconds */
    pthread_barrier_wait(&together);
    int coid = attach(ChannelCreate(0));
    check(TimerTimeout(CLOCK_MONOTONIC, _NTO_TIMEOUT_SEND, NULL, &time, NULL) == 0);
    check(MsgSend(coid, "a", 1, NULL, 0) == -1 && errno == ETIMEDOUT);
    return argument;
}

/* The first calls of a program, by several threads at once. */
void first_calls(void) {
    enum { MANY = 6 };
    for (int turn = 0; turn < 200; turn++) {
        pthread_t threads[MANY];
        int status;
        pid_t child = fork();
        if (child == 0) {
            alarm(HANGS);
            check(pthread_barrier_init(&together, NULL, MANY) == 0);
            for (int at = 0; at < MANY; at++) threads[at] = start(at % 2 ? make_timer : send_to_itself, NULL);
            for (int at = 0; at < MANY; at++) result_of(threads[at]);
            _exit(0);
        }
        check(waitpid(child, &status, 0) == child && WIFEXITED(status) && WEXITSTATUS(status) == 0);
    }
}

/* A child has a kernel of its own, which has nothing of its parent's kernel. */
void forks(void) {
    int chid = ChannelCreate(0), coid = attach(chid);
    name_attach_t *name = name_attach(NULL, "of the child", 0);
    atomic_store(&goes_on, 1);
    pthread_t other = start(call_on, NULL);
    for (int turn = 0; turn < 10; turn++) {
        int status;
        pid_t child = fork();
        if (child == 0) in_the_child(chid, coid);
        check(waitpid(child, &status, 0) == child && WIFEXITED(status) && WEXITSTATUS(status) == 0);
        check(getprio(0) == 10);
    }
    atomic_store(&goes_on, 0);
    result_of(other);
    check(name_detach(name, 0) == 0 && ConnectDetach(coid) == 0 && ChannelDestroy(chid) == 0);
}

static void on_alarm(int signo) { (void)signo; }

void delays(void) {
    struct timespec before, after;
    check(clock_gettime(CLOCK_MONOTONIC, &before) == 0 && delay(20) == 0);
    check(clock_gettime(CLOCK_MONOTONIC, &after) == 0);
    check((after.tv_sec - before.tv_sec) * 1000 + (after.tv_nsec - before.tv_nsec) / 1000000 >= 19);
    check(signal(SIGALRM, on_alarm) != SIG_ERR);
    ualarm(500000, 500000); /* repeats, in case the thread begins to sleep late */
    unsigned left = delay(60000);
    ualarm(0, 0);
    check(left > 0 && left < 60000 && signal(SIGALRM, SIG_DFL) == on_alarm);
}

static int slept_on, other;
static atomic_int asleep, woken;

static void unlock_sleepon(void *unused) {
    (void)unused;
    check(pthread_sleepon_unlock() == 0);
}

static void *sleep_on(void *address) {
    pthread_sleepon_lock();
    pthread_cleanup_push(unlock_sleepon, NULL);
    asleep++;
    check(pthread_sleepon_wait(address) == 0);
    woken++;
    pthread_cleanup_pop(1);
    return NULL;
}

static pthread_t start_sleeper(void *address) {
    int before = asleep;
    pthread_t thread = start(sleep_on, address);
    while (asleep == before) delay(1);
    return thread;
}

/* A signal wakes one thread, the first that slept on this address. A broadcast wakes all threads of the
 * address. */
void sleepers(void) {
    pthread_t first = start_sleeper(&slept_on), elsewhere = start_sleeper(&other), cancelled = start_sleeper(&slept_on);
    check(pthread_sleepon_lock() == 0 && pthread_sleepon_signal(&slept_on) == 0 && pthread_sleepon_unlock() == 0);
    result_of(first);
    set_timeout(_NTO_TIMEOUT_JOIN, 200000000);
    check(pthread_join(cancelled, NULL) == ETIMEDOUT);
    check(woken == 1 && pthread_cancel(cancelled) == 0 && result_of(cancelled) == (long)(intptr_t)PTHREAD_CANCELED);
    check(pthread_sleepon_lock() == 0 && pthread_sleepon_timedwait(&slept_on, 1000000) == ETIMEDOUT);
    check(pthread_sleepon_broadcast(&slept_on) == 0 && pthread_sleepon_unlock() == 0);
    pthread_t all[] = {start_sleeper(&slept_on), start_sleeper(&slept_on)};
    check(pthread_sleepon_lock() == 0 && woken == 1 && pthread_sleepon_broadcast(&slept_on) == 0);
    check(pthread_sleepon_unlock() == 0);
    for (int at = 0; at < 2; at++) result_of(all[at]);
    check(woken == 3 && pthread_sleepon_lock() == 0 && pthread_sleepon_signal(&other) == 0);
    check(pthread_sleepon_unlock() == 0);
    result_of(elsewhere);
    check(woken == 4);
}
