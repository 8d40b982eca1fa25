/* Each call, its results, and its errors. */
#include "tests.h"

#include <limits.h>

void messages(void) {
    neutrino *kernel = open_few();
    char room[8] = "-------", part[4] = "---";
    struct _msg_info info;
    int chid = ChannelCreate(0);
    struct job job = {.kernel = kernel, .tid = 2, .chid = chid};
    pthread_t client = start(send_once, &job);
    int rcvid = MsgReceive(chid, room, 3, &info);
    check(rcvid > 0 && memcmp(room, "hel----", 8) == 0);
    check(info.pid == CLIENTS && info.tid == 2 && info.msglen == 3 && info.srcmsglen == 5 && info.dstmsglen == 8);
    check(info.priority == 20 && info.chid == chid && info.coid > 0 && info.scoid > 0 && info.nd == ND_LOCAL_NODE);
    check(MsgRead(rcvid, part, 3, 3) == 2 && memcmp(part, "lo-", 3) == 0);
    check(MsgRead(rcvid, part, 3, 5) == 0 && MsgRead(rcvid, part, 3, SIZE_MAX) == 0);
    check(MsgWrite(rcvid, "abc", 3, 4) == 3 && MsgWrite(rcvid, "abc", 3, 7) == 1 && MsgWrite(rcvid, "abc", 3, 8) == 0);
    memset(&info, 0, sizeof info);
    check(MsgInfo(rcvid, &info) == 0 && info.tid == 2 && info.msglen == 3 && info.chid == chid && info.scoid > 0);
    fails(MsgInfo(rcvid, NULL), EFAULT);
    become(kernel, 4);
    fails(MsgReply(rcvid, 0, NULL, 0), ESRCH); /* of another process */
    fails(MsgReceive(chid, room, 8, NULL), ESRCH);
    fails(ChannelDestroy(chid), EINVAL);
    become(kernel, 1);
    check(MsgReply(rcvid, 77, "xy", 2) == 0 && result_of(client) == 77 && memcmp(job.reply, "xy..abca", 8) == 0);
    fails(MsgReply(rcvid, 0, NULL, 0), ESRCH);
    fails(MsgError(rcvid, 1), ESRCH);
    fails(MsgInfo(rcvid, &info), ESRCH);
    fails(MsgRead(rcvid, part, 3, 0), ESRCH);
    fails(MsgWrite(rcvid, part, 3, 0), ESRCH);
    client = start(send_once, &job);
    int next = MsgReceive(chid, room, 8, NULL);
    check(next > 0 && next != rcvid);
    fails(MsgReply(rcvid, 0, NULL, 0), ESRCH);
    check(MsgError(next, ENOTTY) == 0 && result_of(client) == -ENOTTY);
    client = start(send_once, &job);
    check(MsgError(MsgReceive(chid, room, 8, NULL), EOK) == 0 && result_of(client) == 0);
    client = start(send_once, &job);
    check(MsgReply(MsgReceive(chid, room, 8, NULL), LONG_MIN, NULL, 0) == 0 && result_of(client) == LONG_MIN);
    check(ChannelDestroy(chid) == 0);
    fails(ChannelDestroy(chid), EINVAL);
    fails(MsgReceive(chid, room, 8, NULL), ESRCH);
    fails(MsgReceivePulse(chid, room, 8, NULL), ESRCH);
    close_few(kernel);
}

static void *send_lengths(void *argument) {
    struct job *job = argument;
    static char sent[256];
    check(neutrino_join(job->kernel, 2) == 0);
    int coid = ConnectAttach(0, SERVER, job->chid, 0, 0);
    for (int at = 0; at < 256; at++) sent[at] = (char)at;
    for (size_t length = 0; length <= 64; length++) {
        char back[65];
        memset(back, '-', sizeof back);
        check(MsgSend(coid, length ? sent : NULL, length, length ? back : NULL, length) == (long)length);
        size_t copied = length < 40 ? length : 40;
        for (size_t at = 0; at < 65; at++) check(back[at] == (at < copied ? (char)at : '-'));
    }
    check(neutrino_leave() == 0);
    return NULL;
}

void lengths(void) {
    neutrino *kernel = open_few();
    char room[64];
    struct job job = {.kernel = kernel, .chid = ChannelCreate(0)};
    struct _msg_info info;
    pthread_t client = start(send_lengths, &job);
    for (size_t length = 0; length <= 64; length++) {
        memset(room, '-', sizeof room);
        int rcvid = MsgReceive(job.chid, room, 40, &info);
        size_t copied = length < 40 ? length : 40;
        check((size_t)info.msglen == copied && (size_t)info.srcmsglen == length && (size_t)info.dstmsglen == length);
        for (size_t at = 0; at < sizeof room; at++) check(room[at] == (at < copied ? (char)at : '-'));
        check(MsgReply(rcvid, (long)length, room, 40) == 0);
    }
    result_of(client);
    fails(MsgReceive(job.chid, NULL, 4, NULL), EFAULT);
    fails(MsgReceivePulse(job.chid, NULL, 4, NULL), EFAULT);
    fails(MsgSend(1, NULL, 4, NULL, 0), EFAULT);
    fails(MsgSend(1, NULL, 0, NULL, 4), EFAULT);
    fails(MsgReply(1, 0, NULL, 4), EFAULT);
    fails(MsgRead(1, NULL, 4, 0), EFAULT);
    fails(MsgWrite(1, NULL, 4, 0), EFAULT);
    close_few(kernel);
}

enum { LONGEST = 100000, LONG_ROUNDS = 120 };

static size_t length_of(int round, int salt) {
    static const size_t edges[] = {1, 1023, 1024, 1025, 2047, 2048, 2049, 65536, LONGEST};
    unsigned seed = (unsigned)(round * 7919 + salt);
    return round % 3 ? 1 + (size_t)rand_r(&seed) % LONGEST : edges[(size_t)(round / 3 + salt) % 9];
}

static char byte_of(int round, size_t at) { return (char)((size_t)round * 31 + at * 7 + at / 251); }

static void *send_long(void *argument) {
    struct job *job = argument;
    char *sent = malloc(LONGEST), *back = malloc(LONGEST);
    check(neutrino_join(job->kernel, 2) == 0);
    int coid = ConnectAttach(0, SERVER, job->chid, 0, 0);
    for (int round = 0; round < LONG_ROUNDS; round++) {
        size_t length = length_of(round, 0), room = length_of(round, 2);
        for (size_t at = 0; at < length; at++) sent[at] = byte_of(round, at);
        memset(back, '-', LONGEST);
        long copied = MsgSend(coid, sent, length, back, room);
        for (size_t at = 0; at < LONGEST; at++) check(back[at] == ((long)at < copied ? byte_of(round, at) : '-'));
    }
    check(neutrino_leave() == 0);
    free(sent);
    free(back);
    return NULL;
}

/* Messages of up to 100,000 bytes into buffers of up to 100,000 bytes. Each byte of both is compared. */
void long_messages(void) {
    neutrino *kernel = open_few();
    char *room = malloc(LONGEST);
    struct job job = {.kernel = kernel, .chid = ChannelCreate(0)};
    pthread_t client = start(send_long, &job);
    for (int round = 0; round < LONG_ROUNDS; round++) {
        struct _msg_info info, again;
        size_t length = length_of(round, 0), shown = length_of(round, 1), reply = length_of(round, 2);
        memset(room, '-', LONGEST);
        if (round % 2) until_state(2, STATE_SEND);
        int rcvid = MsgReceive(job.chid, room, shown, &info);
        size_t copied = length < shown ? length : shown;
        check(rcvid > 0 && (size_t)info.msglen == copied && (size_t)info.srcmsglen == length);
        check(MsgInfo(rcvid, &again) == 0 && memcmp(&info, &again, sizeof info) == 0);
        for (size_t at = 0; at < LONGEST; at++) check(room[at] == (at < copied ? byte_of(round, at) : '-'));
        size_t back = copied < reply ? copied : reply;
        check(MsgReply(rcvid, (long)back, room, copied) == 0);
    }
    result_of(client);
    free(room);
    close_few(kernel);
}

static void send_pulses(neutrino *kernel, int chid, const struct _msg_info *info) {
    become(kernel, 4);
    int second = ConnectAttach(0, SERVER, chid, 0, 0);
    fails(ConnectAttach(0, CLIENTS, chid, 0, 0), ESRCH);
    fails(ConnectAttach(0, 0, chid, 0, 0), ESRCH);
    fails(ConnectAttach(1, SERVER, chid, 0, 0), ESRCH);
    fails(ConnectAttach(0, 257, chid, 0, 0), ESRCH);
    fails(ConnectAttach(0, SERVER, chid + 1, 0, 0), ESRCH);
    check(MsgSendPulse(second, -1, 5, -6) == 0 && MsgSendPulse(second, 40, 6, 7) == 0);
    check(MsgSendPulse(second, 40, 127, INT_MIN) == 0);
    fails(MsgSendPulse(second, 40, -6, 7), EINVAL);
    fails(MsgSendPulse(second, 40, 128, 7), EINVAL);
    fails(MsgSendPulse(second, 0, 6, 7), EINVAL);
    fails(MsgSendPulse(second, 256, 6, 7), EINVAL);
    check(ConnectDetach(second) == 0);
    fails(ConnectDetach(second), EINVAL);
    fails(MsgSend(second, NULL, 0, NULL, 0), EBADF);
    fails(MsgSendPulse(second, -1, 5, -6), EBADF);
    become(kernel, 2);
    fails(MsgSend(info->coid, NULL, 0, NULL, 0), EBADF); /* of another process */
    fails(ConnectDetach(info->coid), EINVAL);
    become(kernel, 4);
    check(ConnectDetach(info->coid) == 0);
    become(kernel, 1);
}

void pulses(void) {
    neutrino *kernel = open_few();
    struct _pulse pulse;
    struct _msg_info info;
    char room[64];
    int chid = ChannelCreate(_NTO_CHF_DISCONNECT | _NTO_CHF_SENDER_LEN);
    struct job job = {.kernel = kernel, .tid = 4, .chid = chid};
    pthread_t client = start(send_once, &job);
    int rcvid = MsgReceive(chid, room, sizeof room, &info);
    check(MsgReply(rcvid, 0, NULL, 0) == 0 && result_of(client) == 0);
    send_pulses(kernel, chid, &info);
    check(MsgReceive(chid, &pulse, sizeof pulse, NULL) == 0 && pulse.code == 6 && pulse.value.sival_int == 7);
    memset(&pulse, 9, sizeof pulse);
    check(MsgReceivePulse(chid, &pulse, 8, NULL) == 0 && pulse.code == 127 && pulse.value.sival_int == 0x09090909);
    check(MsgReceivePulse(chid, &pulse, sizeof pulse, NULL) == 0 && pulse.code == 5 && pulse.value.sival_int == -6);
    check(MsgReceive(chid, &pulse, sizeof pulse, NULL) == 0 && pulse.code == _PULSE_CODE_DISCONNECT);
    check(pulse.scoid == info.scoid && ConnectDetach(pulse.scoid) == 0 && pulse.type == _PULSE_TYPE);
    check(ChannelDestroy(chid) == 0);
    close_few(kernel);
}

void priorities(void) {
    neutrino *kernel = open_few();
    char room[8];
    struct _msg_info info;
    struct sched_param param = {.sched_priority = 44};
    check(neutrino_priority(0) == 10 && neutrino_priority(3) == 30 && neutrino_state(0) == STATE_READY);
    check(SchedSet(0, 0, SCHED_FIFO, &param) == 0 && neutrino_priority(1) == 44);
    check(SchedSet(SERVER, 1, SCHED_FIFO, &param) == 0);
    fails(SchedSet(CLIENTS, 2, SCHED_FIFO, &param), ESRCH);
    fails(SchedSet(0, 2, SCHED_FIFO, &param), ESRCH);
    fails(SchedSet(0, 300, SCHED_FIFO, &param), ESRCH);
    fails(SchedSet(0, 0, SCHED_FIFO, NULL), EFAULT);
    param.sched_priority = 0;
    fails(SchedSet(0, 0, SCHED_FIFO, &param), EINVAL);
    param.sched_priority = 256;
    fails(SchedSet(0, 0, SCHED_FIFO, &param), EINVAL);
    fails(neutrino_state(9), ESRCH);
    fails(neutrino_state(-1), ESRCH);
    fails(neutrino_priority(256), ESRCH);
    int chid = ChannelCreate(0), fixed = ChannelCreate(_NTO_CHF_FIXED_PRIORITY);
    struct job job = {.kernel = kernel, .tid = 3, .chid = fixed};
    pthread_t client = start(send_once, &job);
    int rcvid = MsgReceive(fixed, room, sizeof room, &info);
    check(info.priority == 30 && neutrino_priority(0) == 44);
    check(MsgReply(rcvid, 0, NULL, 0) == 0 && result_of(client) == 0);
    job.chid = chid;
    job.coid = 0;
    client = start(send_once, &job);
    rcvid = MsgReceive(chid, room, sizeof room, NULL);
    check(neutrino_priority(0) == 30 && neutrino_state(3) == STATE_REPLY);
    check(MsgReply(rcvid, 0, NULL, 0) == 0 && result_of(client) == 0 && neutrino_priority(0) == 30);
    close_few(kernel);
}

void limits(void) {
    neutrino *kernel = open_few();
    static int chids[64], coids[1024];
    for (int turn = 0; turn < 3; turn++) {
        for (int at = 0; at < 64; at++) check((chids[at] = ChannelCreate(0)) > 0);
        fails(ChannelCreate(0), EAGAIN);
        for (int at = 0; at < 64; at++) check(ChannelDestroy(chids[at]) == 0);
    }
    for (int turn = 0; turn < 3; turn++) {
        int chid = ChannelCreate(0);
        for (int at = 0; at < 1024; at++) check((coids[at] = ConnectAttach(0, 0, chid, 0, 0)) > 0);
        fails(ConnectAttach(0, 0, chid, 0, 0), EAGAIN);
        if (turn == 1) check(ChannelDestroy(chid) == 0); /* the connections stay */
        if (turn == 1) fails(ConnectAttach(0, 0, ChannelCreate(0), 0, 0), EAGAIN);
        if (turn == 1) fails(MsgSend(coids[7], NULL, 0, NULL, 0), EBADF);
        for (int at = 0; at < 1024; at++) check(ConnectDetach(coids[at]) == 0);
    }
    int chid = ChannelCreate(0), coid = ConnectAttach(0, 0, chid, 0, 0);
    for (int at = 0; at < 1024; at++) check(MsgSendPulse(coid, 1, 1, at) == 0);
    fails(MsgSendPulse(coid, 1, 1, 0), EAGAIN);
    struct _pulse pulse;
    for (int at = 0; at < 1024; at++)
        check(MsgReceive(chid, &pulse, sizeof pulse, NULL) == 0 && pulse.value.sival_int == at);
    close_few(kernel);
}

static int receive_from(struct job *job, pthread_t *client) {
    char room[8];
    *client = start(send_once, job);
    return MsgReceive(job->chid, room, sizeof room, NULL);
}

/* A held message keeps its number. That holds even if its number is in the place of an earlier message whose
 * sender ends another call. */
static void held_number(neutrino *kernel) {
    struct job one = {.kernel = kernel, .tid = 2, .chid = ChannelCreate(0)};
    struct job other = {.kernel = kernel, .tid = 4, .chid = one.chid};
    pthread_t client;
    check(MsgReply(receive_from(&one, &client), 1, NULL, 0) == 0 && result_of(client) == 1);
    for (int at = 0; at < 63; at++)
        check(MsgReply(receive_from(&other, &client), 2, NULL, 0) == 0 && result_of(client) == 2);
    int rcvid = receive_from(&other, &client);
    one.states = _NTO_TIMEOUT_SEND;
    check(result_of(start(send_once, &one)) == -ETIMEDOUT);
    check(MsgReply(rcvid, 3, NULL, 0) == 0 && result_of(client) == 3);
    check(ChannelDestroy(one.chid) == 0);
}

/* Numbers that are gone and numbers that never existed lead to nothing. */
void numbers(void) {
    neutrino *kernel = open_few();
    static const int wrong[] = {0, -1, -5, INT_MIN, INT_MAX, 1, 64, 65, 1024, 1025, 0x40000000};
    char room[8];
    for (size_t at = 0; at < sizeof wrong / sizeof *wrong; at++) {
        fails(MsgReceive(wrong[at], room, 8, NULL), ESRCH);
        fails(MsgReply(wrong[at], 0, NULL, 0), ESRCH);
        fails(MsgSend(wrong[at], NULL, 0, NULL, 0), EBADF);
        fails(ConnectDetach(wrong[at]), EINVAL);
        fails(ChannelDestroy(wrong[at]), EINVAL);
    }
    held_number(kernel);
    fails(ChannelCreate(8), EINVAL);
    fails(ChannelCreate(256), EINVAL);
    static int old[200], coids[200];
    for (int at = 0; at < 200; at++) {
        check((old[at] = ChannelCreate(0)) > 0 && (coids[at] = ConnectAttach(0, 0, old[at], 0, 0)) > 0);
        for (int before = 0; before < at; before++) {
            check(old[before] != old[at] && coids[before] != coids[at]);
            fails(MsgSend(coids[before], NULL, 0, NULL, 0), EBADF);
            fails(ChannelDestroy(old[before]), EINVAL);
        }
        check(ConnectDetach(coids[at]) == 0 && ChannelDestroy(old[at]) == 0);
    }
    close_few(kernel);
}
