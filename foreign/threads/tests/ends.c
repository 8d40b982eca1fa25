/* Calls that wait and are cancelled: unblocked, timed out, detached, by a destroyed channel, or shut down. */
#include "tests.h"

enum { SHORT = 1000000, SENDING = _NTO_TIMEOUT_SEND | _NTO_TIMEOUT_REPLY };

void unblocks(void) {
    neutrino *kernel = open_few();
    struct _pulse pulse;
    char room[8];
    int told = ChannelCreate(_NTO_CHF_UNBLOCK), plain = ChannelCreate(0);
    struct job job = {.kernel = kernel, .tid = 2, .chid = plain};
    pthread_t client = start(send_once, &job);
    until_state(2, STATE_SEND);
    fails(neutrino_unblock(2), ESRCH); /* of another process */
    fails(neutrino_unblock(0), ESRCH);
    fails(neutrino_unblock(256), ESRCH);
    check(neutrino_unblock(1) == 0 && neutrino_state(2) == STATE_SEND);
    become(kernel, 3);
    check(neutrino_unblock(2) == 0 && result_of(client) == -EINTR);
    become(kernel, 1);
    client = start(send_once, &job);
    int rcvid = MsgReceive(plain, room, sizeof room, NULL);
    become(kernel, 3);
    check(neutrino_unblock(2) == 0 && result_of(client) == -EINTR);
    become(kernel, 1);
    fails(MsgReply(rcvid, 0, NULL, 0), ESRCH);
    job.chid = told;
    job.coid = 0;
    client = start(send_once, &job);
    rcvid = MsgReceive(told, room, sizeof room, NULL);
    become(kernel, 3);
    check(neutrino_unblock(2) == 0 && neutrino_unblock(2) == 0 && neutrino_state(2) == STATE_REPLY);
    become(kernel, 1);
    check(MsgReceive(told, &pulse, sizeof pulse, NULL) == 0 && pulse.code == _PULSE_CODE_UNBLOCK);
    check(pulse.value.sival_int == rcvid && MsgError(rcvid, EINTR) == 0 && result_of(client) == -EINTR);
    client = start(send_once, &job);
    rcvid = MsgReceive(told, room, sizeof room, NULL);
    become(kernel, 3);
    check(neutrino_unblock(2) == 0);
    become(kernel, 1);
    check(MsgReply(rcvid, 6, NULL, 0) == 0 && result_of(client) == 6);
    /* The message has its reply by now. */
    check(MsgReceivePulse(told, &pulse, sizeof pulse, NULL) == 0 && pulse.value.sival_int == 0);
    close_few(kernel);
}

/* Sends when thread 1 has waited for a while, so that the message is received at once. */
static void *send_to_receiver(void *argument) {
    struct job *job = argument;
    check(neutrino_join(job->kernel, job->tid) == 0);
    until_state(1, STATE_RECEIVE);
    usleep(20000);
    check(neutrino_leave() == 0);
    return send_once(job);
}

void timeouts(void) {
    neutrino *kernel = open_few();
    struct _pulse pulse;
    char room[8];
    int told = ChannelCreate(_NTO_CHF_UNBLOCK), plain = ChannelCreate(0);
    struct job job = {.kernel = kernel, .tid = 2, .chid = plain, .states = SENDING, .time = SHORT};
    check(result_of(start(send_once, &job)) == -ETIMEDOUT);
    set_timeout(_NTO_TIMEOUT_RECEIVE, SHORT);
    fails(MsgReceive(plain, room, sizeof room, NULL), ETIMEDOUT); /* the message is gone */
    check(TimerTimeout(CLOCK_REALTIME, _NTO_TIMEOUT_RECEIVE, NULL, NULL, NULL) == 0);
    fails(MsgReceivePulse(plain, room, sizeof room, NULL), ETIMEDOUT);
    pthread_t client = start(send_to_receiver, &job);
    int rcvid = MsgReceive(plain, room, sizeof room, NULL);
    check(rcvid > 0 && result_of(client) == -ETIMEDOUT);
    fails(MsgReply(rcvid, 0, NULL, 0), ESRCH);
    job.chid = told;
    job.coid = 0;
    client = start(send_to_receiver, &job);
    rcvid = MsgReceive(told, room, sizeof room, NULL);
    check(rcvid > 0 && MsgReceivePulse(told, &pulse, sizeof pulse, NULL) == 0);
    check(pulse.code == _PULSE_CODE_UNBLOCK && pulse.value.sival_int == rcvid && neutrino_state(2) == STATE_REPLY);
    check(MsgReply(rcvid, 5, NULL, 0) == 0 && result_of(client) == 5);
    close_few(kernel);
}

static void timeout_errors(void) {
    struct sigevent event;
    uint64_t time = SHORT, rest = 1;
    memset(&event, 0, sizeof event);
    event.sigev_notify = SIGEV_NONE;
    fails(TimerTimeout(CLOCK_MONOTONIC, SENDING, &event, &time, NULL), EINVAL);
    SIGEV_UNBLOCK_INIT(&event);
    check(TimerTimeout(CLOCK_MONOTONIC, SENDING, &event, &time, &rest) == 0 && rest == 0);
    check(TimerTimeout(CLOCK_MONOTONIC, SENDING, &event, NULL, &rest) == 0 && rest == SHORT);
    check(TimerTimeout(CLOCK_MONOTONIC, 0, &event, &time, &rest) == 0 && rest == 0);
    fails(TimerTimeout(CLOCK_MONOTONIC, 1, NULL, &time, NULL), EINVAL);
    fails(TimerTimeout(CLOCK_PROCESS_CPUTIME_ID, SENDING, NULL, &time, NULL), EINVAL);
}

/* A timeout applies only to its states, and only to one call. */
void timeout_states(void) {
    neutrino *kernel = open_few();
    char room[8];
    int chid = ChannelCreate(0);
    timeout_errors();
    struct job job = {.kernel = kernel, .tid = 2, .chid = chid, .states = _NTO_TIMEOUT_REPLY, .time = SHORT};
    pthread_t client = start(send_once, &job);
    until_state(2, STATE_SEND);
    usleep(20000);
    check(neutrino_state(2) == STATE_SEND); /* its time is over, but the timeout isn't for this state */
    int rcvid = MsgReceive(chid, room, sizeof room, NULL);
    check(result_of(client) == -ETIMEDOUT);
    fails(MsgReply(rcvid, 0, NULL, 0), ESRCH);
    job.states = _NTO_TIMEOUT_RECEIVE | _NTO_TIMEOUT_REPLY;
    client = start(send_once, &job);
    until_state(2, STATE_SEND);
    usleep(20000);
    check(neutrino_state(2) == STATE_SEND && MsgReceive(chid, room, sizeof room, NULL) > 0);
    check(result_of(client) == -ETIMEDOUT);
    job.states = _NTO_TIMEOUT_SEND;
    job.time = 5 * SHORT;
    client = start(send_to_receiver, &job);
    rcvid = MsgReceive(chid, room, sizeof room, NULL);
    usleep(50000);
    check(neutrino_state(2) == STATE_REPLY && MsgReply(rcvid, 8, NULL, 0) == 0 && result_of(client) == 8);
    job.states = _NTO_TIMEOUT_RECEIVE;
    job.time = 0;
    client = start(send_once, &job);
    rcvid = MsgReceive(chid, room, sizeof room, NULL);
    usleep(5000);
    check(MsgReply(rcvid, 9, NULL, 0) == 0 && result_of(client) == 9);
    set_timeout(_NTO_TIMEOUT_RECEIVE, 0);
    check(neutrino_state(0) == STATE_READY); /* uses up the timeout */
    job.states = 0;
    client = start(send_to_receiver, &job);
    check((rcvid = MsgReceive(chid, room, sizeof room, NULL)) > 0); /* waits */
    check(MsgReply(rcvid, 2, NULL, 0) == 0 && result_of(client) == 2);
    client = start(send_once, &job);
    until_state(2, STATE_SEND);
    set_timeout(_NTO_TIMEOUT_RECEIVE, 0);
    check((rcvid = MsgReceive(chid, room, sizeof room, NULL)) > 0); /* does not wait */
    check(MsgReply(rcvid, 1, NULL, 0) == 0 && result_of(client) == 1);
    close_few(kernel);
}

void detaches(void) {
    neutrino *kernel = open_few();
    char room[8];
    int chid = ChannelCreate(0);
    become(kernel, 3);
    int coid = ConnectAttach(0, SERVER, chid, 0, 0);
    struct job job = {.kernel = kernel, .tid = 2, .coid = coid};
    pthread_t client = start(send_once, &job);
    until_state(2, STATE_SEND);
    check(ConnectDetach(coid) == 0 && result_of(client) == -EBADF);
    job.coid = coid = ConnectAttach(0, SERVER, chid, 0, 0);
    become(kernel, 1);
    client = start(send_once, &job);
    int rcvid = MsgReceive(chid, room, sizeof room, NULL);
    check(MsgWrite(rcvid, "abc", 3, 1) == 3);
    become(kernel, 3);
    check(ConnectDetach(coid) == 0 && result_of(client) == -EBADF && memcmp(job.reply, ".abc....", 8) == 0);
    become(kernel, 1);
    fails(MsgReply(rcvid, 0, NULL, 0), ESRCH);
    close_few(kernel);
}

void destroys(void) {
    neutrino *kernel = open_few();
    char room[8];
    int chid = ChannelCreate(_NTO_CHF_UNBLOCK);
    struct job one = {.kernel = kernel, .tid = 2, .chid = chid}, two = {.kernel = kernel, .tid = 3, .chid = chid};
    pthread_t first = start(send_once, &one);
    int rcvid = MsgReceive(chid, room, sizeof room, NULL);
    pthread_t second = start(send_once, &two);
    until_state(3, STATE_SEND);
    check(ChannelDestroy(chid) == 0 && result_of(first) == -ESRCH && result_of(second) == -ESRCH);
    fails(MsgReply(rcvid, 0, NULL, 0), ESRCH);
    become(kernel, 2);
    struct job waits = {.kernel = kernel, .tid = 3, .chid = ChannelCreate(0)};
    first = start(receive_once, &waits);
    until_state(3, STATE_RECEIVE);
    check(ChannelDestroy(waits.chid) == 0 && result_of(first) == -ESRCH);
    waits.chid = ChannelCreate(0);
    first = start(receive_once, &waits);
    until_state(3, STATE_RECEIVE);
    check(neutrino_unblock(3) == 0 && result_of(first) == -EINTR);
    waits.states = _NTO_TIMEOUT_RECEIVE;
    waits.time = SHORT;
    check(result_of(start(receive_once, &waits)) == -ETIMEDOUT);
    close_few(kernel);
}

enum { PART = 1000 };

/* Sends with a reply buffer whose address is the job's time. */
static void *send_part(void *argument) {
    struct job *job = argument;
    check(neutrino_join(job->kernel, job->tid) == 0);
    int coid = ConnectAttach(ND_LOCAL_NODE, SERVER, job->chid, _NTO_SIDE_CHANNEL, 0);
    fails(MsgSend(coid, NULL, 0, (char *)(uintptr_t)job->time, PART), ESRCH);
    check(neutrino_leave() == 0);
    return NULL;
}

/* Calls that are completed together get all bytes of their buffers, though each buffer is short. */
void parts(void) {
    static char buffers[3][PART];
    neutrino *kernel = open_few();
    struct job jobs[3];
    pthread_t clients[3];
    int chid = ChannelCreate(0);
    for (int at = 0; at < 3; at++) {
        jobs[at] = (struct job){.kernel = kernel, .tid = at + 2, .chid = chid, .time = (uintptr_t)buffers[at]};
        clients[at] = start(send_part, &jobs[at]);
        check(MsgWrite(MsgReceive(chid, NULL, 0, NULL), "written", 7, PART - 7) == 7);
    }
    check(ChannelDestroy(chid) == 0);
    for (int at = 0; at < 3; at++) {
        result_of(clients[at]);
        check(memcmp(buffers[at] + PART - 7, "written", 7) == 0);
    }
    close_few(kernel);
}

void shutdowns(void) {
    neutrino *kernel = open_few();
    char room[8];
    int chid = ChannelCreate(_NTO_CHF_UNBLOCK), other = ChannelCreate(0);
    struct job one = {.kernel = kernel, .tid = 2, .chid = chid}, two = {.kernel = kernel, .tid = 3, .chid = chid};
    struct job three = {.kernel = kernel, .tid = 4, .chid = other};
    pthread_t first = start(send_once, &one);
    check(MsgReceive(chid, room, sizeof room, NULL) > 0);
    pthread_t second = start(send_once, &two), third = start(send_once, &three);
    until_state(3, STATE_SEND);
    until_state(4, STATE_SEND);
    check(neutrino_leave() == 0 && neutrino_shutdown(kernel) == 0); /* by a thread that has not joined */
    check(result_of(first) == -ESRCH && result_of(second) == -ESRCH && result_of(third) == -ESRCH);
    check(neutrino_join(kernel, 1) == 0);
    fails(ChannelCreate(0), ESHUTDOWN);
    fails(MsgReceive(chid, room, 8, NULL), ESHUTDOWN);
    fails(MsgSendPulse(1, -1, 1, 1), ESHUTDOWN);
    check(neutrino_shutdown(kernel) == 0); /* a second shutdown succeeds, too */
    close_few(kernel);
    kernel = open_few();
    become(kernel, 2);
    struct job waits = {.kernel = kernel, .tid = 3, .chid = ChannelCreate(0)};
    first = start(receive_once, &waits);
    until_state(3, STATE_RECEIVE);
    check(neutrino_shutdown(kernel) == 0 && result_of(first) == -ESRCH);
    close_few(kernel);
}
