/* Functions for a library over the layer: interruptions, cancellations, a look at all threads, and hooks. */
#include "tests.h"
#include "balsaeuchre.h"

static _Atomic int interrupted;

static void interrupt(int signo) {
    (void)signo;
    neutrino_interrupt();
    atomic_fetch_add(&interrupted, 1);
}

static void *receive_or_send(void *argument) {
    struct job *job = argument;
    char room[8];
    check(neutrino_join(job->kernel, job->tid) == 0);
    if (job->states) check(neutrino_interruptible() == 0);
    int coid = job->tid == 1 ? 0 : ConnectAttach(0, SERVER, job->chid, 0, 0);
    long result = coid ? MsgSend(coid, "hello", 5, job->reply, sizeof job->reply)
                       : MsgReceive(job->chid, room, sizeof room, NULL);
    intptr_t error = result == -1 ? -errno : result;
    check(neutrino_leave() == 0);
    return (void *)error;
}

static pthread_t begin(struct job *job, int state) {
    pthread_t thread = start(receive_or_send, job);
    until_state(job->tid, state);
    return thread;
}

/* A handler ends the call of an interruptible thread, and of no other. On a channel with the flag
 * UNBLOCK the server decides. */
void interrupts(void) {
    neutrino *kernel = open_few();
    struct sigaction action;
    struct _msg_info info;
    struct _pulse pulse;
    char room[8];
    memset(&action, 0, sizeof action);
    action.sa_handler = interrupt;
    action.sa_flags = SA_RESTART;
    check(sigaction(SIGUSR1, &action, NULL) == 0);
    neutrino_interrupt(); /* the thread waits in no call */
    int chid = ChannelCreate(0), told = ChannelCreate(_NTO_CHF_UNBLOCK);
    struct job job = {.kernel = kernel, .tid = 2, .chid = chid, .states = 1};
    pthread_t thread = begin(&job, STATE_SEND);
    check(pthread_kill(thread, SIGUSR1) == 0 && result_of(thread) == -EINTR);
    job.chid = told;
    thread = begin(&job, STATE_SEND);
    int rcvid = MsgReceive(told, room, sizeof room, &info);
    check(info.flags == 0 && pthread_kill(thread, SIGUSR1) == 0);
    check(MsgReceivePulse(told, &pulse, sizeof pulse, NULL) == 0 && pulse.value.sival_int == rcvid);
    check(MsgInfo(rcvid, &info) == 0 && info.flags == _NTO_MI_UNBLOCK_REQ);
    check(MsgReply(rcvid, 9, NULL, 0) == 0 && result_of(thread) == 9);
    job.states = 0;
    thread = begin(&job, STATE_SEND);
    atomic_store(&interrupted, 0);
    check(pthread_kill(thread, SIGUSR1) == 0);
    while (!atomic_load(&interrupted)) usleep(50);
    check(neutrino_state(2) == STATE_SEND && MsgReply(MsgReceive(told, room, 8, NULL), 5, NULL, 0) == 0);
    check(result_of(thread) == 5 && neutrino_leave() == 0);
    fails(neutrino_interruptible(), EPERM);
    check(neutrino_join(kernel, 1) == 0);
    close_few(kernel);
}

/* A cancelled thread's call ends, and so does each later call that has to wait. */
void cancelled(void) {
    neutrino *kernel = open_few();
    struct job job = {.kernel = kernel, .tid = 1, .chid = ChannelCreate(0), .states = 1};
    fails(neutrino_cancel(kernel, 2), ESRCH);
    fails(neutrino_cancel(kernel, 200), ESRCH);
    fails(neutrino_cancel(kernel, -1), ESRCH);
    become(kernel, 4);
    pthread_t thread = begin(&job, STATE_RECEIVE);
    check(neutrino_cancel(kernel, 1) == 0 && result_of(thread) == -EINTR);
    job.states = 0;
    thread = begin(&job, STATE_RECEIVE);
    check(neutrino_cancel(kernel, 1) == 0);
    usleep(5000);
    check(neutrino_state(1) == STATE_RECEIVE && neutrino_shutdown(kernel) == 0 && result_of(thread) == -ESRCH);
    close_few(kernel);
    kernel = open_few();
    char room[8];
    int chid = ChannelCreate(0);
    check(neutrino_interruptible() == 0 && neutrino_cancel(kernel, 1) == 0);
    fails(MsgReceive(chid, room, 8, NULL), EINTR);
    fails(MsgReceive(chid, room, 8, NULL), EINTR);
    become(kernel, 1); /* the next thread in the place is not cancelled */
    check(neutrino_interruptible() == 0);
    set_timeout(_NTO_TIMEOUT_RECEIVE, 1000000);
    fails(MsgReceive(chid, room, 8, NULL), ETIMEDOUT);
    close_few(kernel);
}

static int chid_of_other;

static void create_as(void *flags) { chid_of_other = ChannelCreate(*(unsigned *)flags); }

static void call_again(void *kernel) {
    fails(neutrino_act_as(kernel, 2, create_as, kernel), EBUSY);
    fails(neutrino_join(kernel, 3), EBUSY);
}

/* A thread acts as another, and afterwards is itself again, with its timeout and its cancellation. */
void acts(void) {
    neutrino *kernel = neutrino_open(few, 4);
    char room[8];
    unsigned flags = 0;
    check(neutrino_act_as(kernel, 2, create_as, &flags) == 0 && chid_of_other > 0); /* it has not joined */
    fails(ChannelDestroy(chid_of_other), EPERM);
    check(neutrino_join(kernel, 1) == 0 && neutrino_interruptible() == 0);
    fails(ChannelDestroy(chid_of_other), EINVAL); /* of another process */
    fails(neutrino_act_as(kernel, 1, create_as, &flags), EBUSY);
    fails(neutrino_act_as(kernel, 9, create_as, &flags), ESRCH);
    fails(neutrino_act_as(kernel, -1, create_as, &flags), ESRCH);
    check(neutrino_act_as(kernel, 2, call_again, kernel) == 0 && neutrino_inside() == 0);
    int chid = ChannelCreate(0);
    set_timeout(_NTO_TIMEOUT_RECEIVE, 1000000);
    check(neutrino_act_as(kernel, 2, create_as, &flags) == 0);
    fails(MsgReceive(chid, room, 8, NULL), ETIMEDOUT);
    check(neutrino_cancel(kernel, 1) == 0 && neutrino_act_as(kernel, 2, create_as, &flags) == 0);
    fails(MsgReceive(chid, room, 8, NULL), EINTR);
    become(kernel, 2); /* whose place is free again */
    close_few(kernel);
}

/* A channel that is full of pulses takes no unblock pulse. So its server isn't asked for
 * anything until there is room. */
void full_channels(void) {
    neutrino *kernel = open_few();
    struct sigaction action;
    struct _msg_info info;
    struct _pulse pulse;
    char room[8];
    memset(&action, 0, sizeof action);
    action.sa_handler = interrupt;
    check(sigaction(SIGUSR1, &action, NULL) == 0);
    int chid = ChannelCreate(_NTO_CHF_UNBLOCK), coid = ConnectAttach(0, 0, chid, 0, 0);
    struct job job = {.kernel = kernel, .tid = 2, .chid = chid, .states = 1};
    pthread_t thread = begin(&job, STATE_SEND);
    int rcvid = MsgReceive(chid, room, sizeof room, NULL);
    for (int at = 0; at < 1024; at++) check(MsgSendPulse(coid, 10, 1, at) == 0);
    atomic_store(&interrupted, 0);
    check(pthread_kill(thread, SIGUSR1) == 0);
    while (!atomic_load(&interrupted)) usleep(50);
    usleep(20000);
    check(MsgInfo(rcvid, &info) == 0 && info.flags == 0 && neutrino_state(2) == STATE_REPLY);
    check(MsgReceivePulse(chid, &pulse, sizeof pulse, NULL) == 0 && pulse.code == 1);
    do check(MsgInfo(rcvid, &info) == 0); /* it is tried again */
    while (info.flags != _NTO_MI_UNBLOCK_REQ);
    check(MsgReply(rcvid, 6, NULL, 0) == 0 && result_of(thread) == 6);
    close_few(kernel);
}

void looks(void) {
    neutrino *kernel = open_few();
    struct neutrino_blocked all[256];
    char room[8];
    int chid = ChannelCreate(0), other = ChannelCreate(0);
    struct job one = {.kernel = kernel, .tid = 2, .chid = chid}, two = {.kernel = kernel, .tid = 3, .chid = other};
    pthread_t first = begin(&one, STATE_SEND), second = begin(&two, STATE_SEND);
    check(neutrino_look(kernel, all) == 0 && all[1].state == STATE_READY && all[4].state == 0 && all[0].state == 0);
    check(all[2].state == STATE_SEND && all[2].chid == chid && all[2].server == 1 && all[2].rcvid == 0);
    check(all[3].state == STATE_SEND && all[3].chid == other && all[1].chid == 0 && all[1].server == 0);
    int rcvid = MsgReceive(chid, room, sizeof room, NULL);
    check(neutrino_look(kernel, all) == 0 && all[2].state == STATE_REPLY && all[2].rcvid == rcvid);
    check(all[2].chid == chid && all[2].server == 1 && MsgReply(rcvid, 1, NULL, 0) == 0 && result_of(first) == 1);
    check(MsgReply(MsgReceive(other, room, 8, NULL), 2, NULL, 0) == 0 && result_of(second) == 2);
    become(kernel, 4);
    struct job waits = {.kernel = kernel, .tid = 1, .chid = chid};
    first = begin(&waits, STATE_RECEIVE);
    check(neutrino_look(kernel, all) == 0 && all[1].state == STATE_RECEIVE && all[1].chid == chid);
    check(all[2].state == 0 && neutrino_shutdown(kernel) == 0 && result_of(first) == -ESRCH);
    close_few(kernel);
}

static int calls_seen, bytes_seen;

static void see_call(const struct balsaeuchre_request *request, const void *sent, size_t sent_len, const void *room,
                     size_t room_len, const struct balsaeuchre_event *event) {
    (void)sent;
    (void)room;
    (void)room_len;
    calls_seen++;
    check(event->done.call == (uint64_t)calls_seen && request->thread == 1);
    bytes_seen += (int)sent_len;
}

static void change_pulse(struct _pulse *pulse) { pulse->value.sival_int++; }

void hooks(void) {
    neutrino *kernel = neutrino_open(few, 4);
    const struct neutrino_hooks both = {see_call, change_pulse};
    struct _pulse pulse;
    neutrino_set_hooks(kernel, &both);
    check(neutrino_join(kernel, 1) == 0);
    int chid = ChannelCreate(0), coid = ConnectAttach(0, 0, chid, 0, 0);
    check(MsgSendPulse(coid, 1, 5, 6) == 0 && MsgReceivePulse(chid, &pulse, sizeof pulse, NULL) == 0);
    check(pulse.value.sival_int == 7 && calls_seen == 4);
    fails(MsgReply(1, 0, "four", 4), ESRCH);
    check(calls_seen == 5 && bytes_seen == 4);
    close_few(kernel);
}
