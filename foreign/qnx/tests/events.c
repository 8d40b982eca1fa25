/* Events that are delivered, with each of their errors. */
#include "tests.h"

static _Atomic int caught, caught_value, caught_code;
static _Atomic pthread_t caught_by;

static void note_signal(int signo, siginfo_t *info, void *context) {
    (void)context;
    atomic_store(&caught_value, info->si_value.sival_int);
    atomic_store(&caught_code, info->si_code);
    atomic_store(&caught_by, pthread_self());
    atomic_store(&caught, signo);
}

static void catches(int signo) {
    struct sigaction action;
    memset(&action, 0, sizeof action);
    action.sa_sigaction = note_signal;
    action.sa_flags = SA_SIGINFO;
    atomic_store(&caught, 0);
    check(sigaction(signo, &action, NULL) == 0);
}

static void until_caught(int signo) {
    while (atomic_load(&caught) != signo) usleep(100);
    check(signal(signo, SIG_IGN) != SIG_ERR);
}

void events(void) {
    static const int codes[] = {SI_MINAVAIL, SI_MAXAVAIL, 0, 3};
    struct sigevent event;
    struct _pulse pulse;
    struct client client;
    int chid = ChannelCreate(0), coid = attach(chid);
    SIGEV_NONE_INIT(&event);
    check(MsgDeliverEvent(0, &event) == 0);
    SIGEV_PULSE_INIT(&event, coid, 33, 9, -4);
    SIGEV_MAKE_UPDATEABLE(&event);
    check(MsgDeliverEvent(0, &event) == 0 && MsgReceivePulse(chid, &pulse, sizeof pulse, NULL) == 0);
    check(pulse.code == 9 && pulse.value.sival_int == -4 && getprio(0) == 33);
    SIGEV_PULSE_PTR_INIT(&event, coid, SIGEV_PULSE_PRIO_INHERIT, 8, &pulse);
    returns_r(MsgDeliverEvent_r(1, &event), EOK);
    check(MsgReceivePulse(chid, &pulse, sizeof pulse, NULL) == 0 && pulse.value.sival_ptr == &pulse);
    catches(SIGUSR2);
    SIGEV_SIGNAL_INIT(&event, SIGUSR2);
    check(MsgDeliverEvent(0, &event) == 0);
    until_caught(SIGUSR2);
    for (int at = 0; at < 4; at++) {
        int code = codes[at];
        catches(SIGUSR2);
        SIGEV_SIGNAL_CODE_INIT(&event, SIGUSR2, 55 + code, code);
        check(MsgDeliverEvent(0, &event) == 0);
        until_caught(SIGUSR2);
        check(atomic_load(&caught_value) == 55 + code && atomic_load(&caught_code) == (code ? code : SI_QUEUE));
    }
    begin_send(&client, coid);
    int rcvid = receive(chid);
    SIGEV_UNBLOCK_INIT(&event);
    check(MsgDeliverEvent(rcvid, &event) == 0);
    end_send(&client);
    check(client.error == EINTR);
    begin_send(&client, coid);
    rcvid = receive(chid);
    catches(SIGUSR2);
    SIGEV_SIGNAL_THREAD_PTR_INIT(&event, SIGUSR2, 5, SI_MAXAVAIL);
    check(MsgDeliverEvent(rcvid, &event) == 0);
    end_send(&client);
    check(client.error == EINTR && pthread_equal(atomic_load(&caught_by), client.thread));
    until_caught(SIGUSR2);
    check(atomic_load(&caught_value) == 5 && atomic_load(&caught_code) == SI_MAXAVAIL);
    check(ConnectDetach(coid) == 0 && ChannelDestroy(chid) == 0 && setprio(0, 10) > 0);
}

void event_errors(void) {
    struct sigevent event;
    int chid = ChannelCreate(0), coid = attach(chid);
    fails(MsgDeliverEvent(0, NULL), EFAULT);
    SIGEV_INTR_INIT(&event);
    fails(MsgDeliverEvent(0, &event), EINVAL);
    SIGEV_PULSE_INIT(&event, coid, 0, 1, 1);
    fails(MsgDeliverEvent(0, &event), EINVAL);
    SIGEV_PULSE_INIT(&event, coid, 1, 128, 1);
    fails(MsgDeliverEvent(0, &event), EINVAL);
    SIGEV_PULSE_INIT(&event, coid + 1, 1, 1, 1);
    fails(MsgDeliverEvent(0, &event), EBADF);
    returns_r(MsgDeliverEvent_r(0, &event), EBADF);
    SIGEV_PULSE_INIT(&event, coid, 1, 1, 1);
    fails(MsgDeliverEvent(-1, &event), ESRCH);
    for (int at = 0; at < 1024; at++) check(MsgDeliverEvent(0, &event) == 0);
    fails(MsgDeliverEvent(0, &event), EAGAIN);
    SIGEV_SIGNAL_INIT(&event, 0);
    fails(MsgDeliverEvent(0, &event), EINVAL);
    SIGEV_SIGNAL_INIT(&event, 65);
    fails(MsgDeliverEvent(0, &event), EINVAL);
    SIGEV_UNBLOCK_INIT(&event);
    fails(MsgDeliverEvent(12345, &event), ESRCH);
    SIGEV_SIGNAL_THREAD_INIT(&event, SIGUSR2, 0, 0);
    fails(MsgDeliverEvent(12345, &event), ESRCH);
    check(ConnectDetach(coid) == 0 && ChannelDestroy(chid) == 0);
}

void verified(void) {
    struct sigevent event;
    int chid = ChannelCreate(0), coid = attach(chid);
    fails(MsgVerifyEvent(0, NULL), EFAULT);
    fails(MsgRegisterEvent(NULL, coid), EFAULT);
    fails(MsgUnregisterEvent(NULL), EFAULT);
    SIGEV_INTR_INIT(&event);
    fails(MsgVerifyEvent(0, &event), EINVAL);
    fails(MsgRegisterEvent(&event, coid), EINVAL);
    SIGEV_PULSE_INIT(&event, coid, 1, 1, 1);
    check(MsgVerifyEvent(0, &event) == 0 && MsgRegisterEvent(&event, coid) == 0 && MsgRegisterEvent(&event, -1) == 0);
    check(MsgUnregisterEvent(&event) == 0);
    fails(MsgVerifyEvent(-1, &event), ESRCH);
    fails(MsgRegisterEvent(&event, coid + 1), EBADF);
    event.sigev_coid = coid + 1;
    fails(MsgVerifyEvent(0, &event), EBADF);
    returns_r(MsgVerifyEvent_r(0, &event), EBADF);
    returns_r(MsgRegisterEvent_r(&event, coid), EBADF);
    returns_r(MsgUnregisterEvent_r(&event), EBADF);
    check(ConnectDetach(coid) == 0 && ChannelDestroy(chid) == 0);
}
