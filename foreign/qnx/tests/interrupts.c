/* Interrupts: events, masks, InterruptWait, with each of their errors. */
#include "tests.h"

#include <sys/eventfd.h>

enum { LINE = 5 };

static void raise_line(int intr) {
    int fd = neutrino_interrupt_line(intr);
    check(fd >= 0 && eventfd_write(fd, 1) == 0);
}

static void no_pulse(int chid) {
    struct _pulse pulse;
    set_timeout(_NTO_TIMEOUT_RECEIVE, 20000000);
    fails(MsgReceivePulse(chid, &pulse, sizeof pulse, NULL), ETIMEDOUT);
}

static void one_pulse(int chid, int value) {
    struct _pulse pulse;
    check(MsgReceivePulse(chid, &pulse, sizeof pulse, NULL) == 0 && pulse.code == 3);
    check(pulse.value.sival_int == value);
}

/* A line is masked when its event is delivered. Raised meanwhile, it delivers once more when it is unmasked. */
void interrupts(void) {
    struct sigevent event;
    int chid = ChannelCreate(0), coid = attach(chid);
    SIGEV_PULSE_INIT(&event, coid, 21, 3, 77);
    int id = InterruptAttachEvent(LINE, &event, _NTO_INTR_FLAGS_TRK_MSK);
    check(id > 0);
    for (int turn = 0; turn < 20; turn++) {
        raise_line(LINE);
        one_pulse(chid, 77);
        check(InterruptUnmask(LINE, id) == 0);
    }
    raise_line(LINE);
    one_pulse(chid, 77);
    raise_line(LINE);
    raise_line(LINE);
    no_pulse(chid);
    check(InterruptMask(LINE, id) == 2 && InterruptUnmask(LINE, id) == 1);
    no_pulse(chid);
    check(InterruptUnmask(LINE, id) == 0);
    one_pulse(chid, 77); /* two raises while it was masked are one interrupt */
    check(InterruptUnmask(LINE, id) == 0 && InterruptUnmask(LINE, id) == 0);
    no_pulse(chid);
    check(InterruptMask(LINE, -1) == 1);
    raise_line(LINE);
    no_pulse(chid);
    check(InterruptUnmask(LINE, -1) == 0);
    one_pulse(chid, 77);
    check(InterruptDetach(id) == 0); /* this ends the mask */
    check(InterruptMask(LINE, -1) == 1 && InterruptUnmask(LINE, -1) == 0);
    raise_line(LINE);
    no_pulse(chid); /* nobody is attached, so the line stays raised */
    returns_r(InterruptAttachEvent_r(LINE, &event, 0), id);
    one_pulse(chid, 77);
    returns_r(InterruptDetach_r(id), EOK);
    check(ConnectDetach(coid) == 0 && ChannelDestroy(chid) == 0);
}

/* Two events of one line, and another line. */
void shared_lines(void) {
    struct sigevent event;
    int chid = ChannelCreate(0), coid = attach(chid);
    SIGEV_PULSE_INIT(&event, coid, 10, 3, 1);
    int first = InterruptAttachEvent(LINE, &event, 0);
    SIGEV_PULSE_INIT(&event, coid, 10, 3, 2);
    int second = InterruptAttachEvent(LINE, &event, 0), third = InterruptAttachEvent(LINE + 1, &event, 0);
    check(first > 0 && second > first && third > second);
    raise_line(LINE);
    one_pulse(chid, 1);
    one_pulse(chid, 2);
    check(InterruptUnmask(LINE, first) == 1);
    raise_line(LINE);
    no_pulse(chid);
    raise_line(LINE + 1);
    one_pulse(chid, 2);
    check(InterruptDetach(second) == 0);
    one_pulse(chid, 1);
    check(InterruptDetach(first) == 0 && InterruptDetach(third) == 0);
    check(ConnectDetach(coid) == 0 && ChannelDestroy(chid) == 0);
}

static _Atomic int signalled;

static void count_signal(int signo) { atomic_store(&signalled, signo); }

static void expect_signal(struct sigevent *event, int signo) {
    int id = InterruptAttachEvent(LINE, event, 0);
    check(id > 0);
    atomic_store(&signalled, 0);
    raise_line(LINE);
    while (atomic_load(&signalled) != signo) usleep(100);
    check(InterruptDetach(id) == 0);
}

/* Signals as events, and an event of no effect. */
void interrupt_signals(void) {
    struct sigevent event;
    check(signal(SIGUSR1, count_signal) != SIG_ERR && signal(SIGUSR2, count_signal) != SIG_ERR);
    SIGEV_SIGNAL_INIT(&event, SIGUSR1);
    expect_signal(&event, SIGUSR1);
    SIGEV_SIGNAL_CODE_INIT(&event, SIGUSR2, 4, SI_MINAVAIL);
    expect_signal(&event, SIGUSR2);
    SIGEV_SIGNAL_THREAD_INIT(&event, SIGUSR1, 4, SI_MINAVAIL);
    expect_signal(&event, SIGUSR1);
    SIGEV_NONE_INIT(&event);
    int id = InterruptAttachEvent(LINE, &event, 0);
    raise_line(LINE);
    while (InterruptMask(LINE, id) < 2) check(InterruptUnmask(LINE, id) >= 0);
    check(InterruptDetach(id) == 0);
    check(signal(SIGUSR1, SIG_DFL) == count_signal && signal(SIGUSR2, SIG_DFL) == count_signal);
}

static void *wait_for_interrupt(void *argument) {
    struct sigevent event;
    uint64_t time = 2000000;
    (void)argument;
    SIGEV_INTR_INIT(&event);
    int id = InterruptAttachEvent(LINE, &event, 0);
    check(id > 0);
    fails(InterruptWait(1, NULL), EINVAL);
    fails(InterruptWait(0, &time), ENOTSUP);
    set_timeout(_NTO_TIMEOUT_INTR, 1000000);
    fails(InterruptWait(0, NULL), ETIMEDOUT);
    for (int turn = 0; turn < 20; turn++) {
        raise_line(LINE);
        check(InterruptWait(0, NULL) == 0 && InterruptUnmask(LINE, id) == 0);
    }
    raise_line(LINE);
    while (InterruptMask(LINE, id) < 2) check(InterruptUnmask(LINE, id) >= 0); /* until it has been delivered */
    check(InterruptUnmask(LINE, id) == 1 && InterruptUnmask(LINE, id) == 0);
    raise_line(LINE);
    while (InterruptMask(LINE, id) < 2) check(InterruptUnmask(LINE, id) >= 0);
    returns_r(InterruptWait_r(0, NULL), EOK); /* two that came before are one */
    set_timeout(_NTO_TIMEOUT_INTR, 1000000);
    returns_r(InterruptWait_r(0, NULL), ETIMEDOUT);
    return (void *)(intptr_t)id;
}

static void *wait_in_vain(void *argument) {
    (void)argument;
    raise_line(LINE);
    set_timeout(_NTO_TIMEOUT_INTR, 20000000);
    fails(InterruptWait(0, NULL), ETIMEDOUT);
    return NULL;
}

/* After its thread has ended, nobody gets an interrupt, not even a thread in the same place. */
void interrupt_waits(void) {
    int id = (int)result_of(start(wait_for_interrupt, NULL));
    check(InterruptUnmask(LINE, -1) == 1 && InterruptUnmask(LINE, -1) == 0);
    result_of(start(wait_in_vain, NULL));
    check(InterruptDetach(id) == 0);
}

void interrupt_errors(void) {
    int all[64];
    struct sigevent event;
    int chid = ChannelCreate(0), coid = attach(chid);
    SIGEV_PULSE_INIT(&event, coid, 10, 1, 1);
    fails(InterruptAttachEvent(-1, &event, 0), EINVAL);
    fails(InterruptAttachEvent(256, &event, 0), EINVAL);
    fails(InterruptAttachEvent(1, &event, 0x100), EINVAL);
    fails(InterruptAttachEvent(1, NULL, 0), EFAULT);
    SIGEV_PULSE_INIT(&event, coid, 0, 1, 1);
    fails_r(InterruptAttachEvent_r(1, &event, 0), EINVAL);
    SIGEV_UNBLOCK_INIT(&event);
    fails(InterruptAttachEvent(1, &event, 0), EINVAL);
    SIGEV_NONE_INIT(&event);
    for (int at = 0; at < 64; at++) check((all[at] = InterruptAttachEvent(255 - at % 3, &event, 0)) > 0);
    fails(InterruptAttachEvent(1, &event, 0), EAGAIN);
    fails(InterruptMask(255, all[1]), EINVAL); /* another line's */
    fails(InterruptUnmask(255, 65), EINVAL);
    fails(InterruptMask(-1, -1), EINVAL);
    fails(InterruptUnmask(256, -1), EINVAL);
    fails(neutrino_interrupt_line(-1), EINVAL);
    fails(neutrino_interrupt_line(256), EINVAL);
    for (int at = 0; at < 64; at++) check(InterruptDetach(all[at]) == 0);
    fails(InterruptDetach(all[0]), EINVAL);
    fails(InterruptDetach(0), EINVAL);
    returns_r(InterruptDetach_r(65), EINVAL);
    fails(InterruptMask(255, all[0]), EINVAL);
    check(ConnectDetach(coid) == 0 && ChannelDestroy(chid) == 0);
}
