/* Many threads: threads that come and go, and many clients and servers at once. */
#include "tests.h"

enum { STOP = 7 };

static int coid, chid;
static _Atomic int answered, serving = 1;

static void *serve(void *argument) {
    union {
        struct _pulse pulse;
        uint8_t bytes[32];
    } message;
    struct _msg_info info;
    check(getprio(0) > 0); /* takes a place */
    while (!atomic_load(&serving)) usleep(100);
    for (;;) {
        int rcvid = MsgReceive(chid, &message, sizeof message, &info);
        if (rcvid == 0 && message.pulse.code == STOP) return argument;
        check(rcvid > 0 && info.pid == getpid() && info.coid == coid && info.msglen == 4);
        atomic_fetch_add(&answered, 1);
        message.bytes[1] ^= 0xff;
        check(MsgReply(rcvid, message.bytes[2], message.bytes, 4) == 0);
    }
}

static int taken(void) {
    int count = 0;
    for (int tid = 1; tid <= 60; tid++) count += neutrino_state(tid) != -1;
    return count;
}

static void ask_once(int number, int round) {
    uint8_t sent[4] = {(uint8_t)number, (uint8_t)round, (uint8_t)(round >> 8), 5}, back[8] = {0};
    long status = MsgSend(coid, sent, 4, back, 8);
    if (status != sent[2]) {
        int error = errno;
        fprintf(stderr, "MsgSend returned %ld, not %d; %d places are taken\n", status, sent[2], taken());
        errno = error;
    }
    check(status == sent[2]);
    check(back[0] == sent[0] && (back[1] ^ sent[1]) == 0xff && back[3] == 5 && back[4] == 0);
}

static void *ask(void *number) {
    ask_once((int)(intptr_t)number, 3);
    return NULL;
}

static int of_each; /* the rounds of each client */

static void *ask_often(void *number) {
    for (int round = 0; round < of_each; round++) ask_once((int)(intptr_t)number, round);
    return NULL;
}

static void stop(pthread_t *servers, int count) {
    for (int at = 0; at < count; at++) check(MsgSendPulse(coid, -1, STOP, 0) == 0);
    for (int at = 0; at < count; at++) result_of(servers[at]);
    check(ConnectDetach(coid) == 0 && ChannelDestroy(chid) == 0);
}

static void open_servers(pthread_t *servers, int count) {
    chid = ChannelCreate(0);
    coid = attach(chid);
    atomic_store(&answered, 0);
    for (int at = 0; at < count; at++) servers[at] = start(serve, NULL);
}

/* Starts five times as many threads as rounds, some at a time. Each takes a place, and gives it back. */
void lives(void) {
    enum { AT_ONCE = 20 };
    pthread_t servers[2], threads[AT_ONCE];
    open_servers(servers, 2);
    for (int turn = 0; turn < 5 * rounds / AT_ONCE; turn++) {
        for (int at = 0; at < AT_ONCE; at++) threads[at] = start(ask, (void *)(intptr_t)at);
        for (int at = 0; at < AT_ONCE; at++) result_of(threads[at]);
    }
    check(atomic_load(&answered) == 5 * rounds / AT_ONCE * AT_ONCE);
    stop(servers, 2);
}

/* Starts more threads at once than there are places: the others wait. The servers reply to no message before
 * all places are taken and some threads have come too late. */
void crowds(void) {
    enum { AT_ONCE = 80 };
    pthread_t servers[8], threads[AT_ONCE];
    atomic_store(&serving, 0);
    open_servers(servers, 8);
    while (taken() < 9) usleep(5000);
    for (int at = 0; at < AT_ONCE; at++) threads[at] = start(ask, (void *)(intptr_t)at);
    while (taken() < 60) usleep(5000);
    usleep(20000);
    atomic_store(&serving, 1);
    for (int at = 0; at < AT_ONCE; at++) result_of(threads[at]);
    check(atomic_load(&answered) == AT_ONCE);
    stop(servers, 8);
}

static void echo(int clients, int count, int each) {
    pthread_t servers[8], threads[40];
    of_each = each;
    open_servers(servers, count);
    for (int at = 0; at < clients; at++) threads[at] = start(ask_often, (void *)(intptr_t)at);
    for (int at = 0; at < clients; at++) result_of(threads[at]);
    check(atomic_load(&answered) == clients * each);
    stop(servers, count);
}

void echo_1_1(void) { echo(1, 1, 4 * rounds); }
void echo_40_8(void) { echo(40, 8, rounds / 4); }
