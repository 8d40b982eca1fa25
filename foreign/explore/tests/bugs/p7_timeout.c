/* Timeout against reply: a client that gave up sends again, and its deposit is made twice. */
#include "common.h"

static int chid;
static int32_t balance;

static void *server(void *arg) {
    message_t msg;
    for (;;) {
        int rcvid = MsgReceive(chid, &msg, sizeof msg, NULL);
        if (rcvid == 0) return arg;
        balance += msg.request.number; /* this thread's alone */
        MsgReply(rcvid, EOK, &balance, sizeof balance);
    }
}

static void *client(void *arg) {
    int coid = attach(chid);
    uint64_t limit = 20000000;
    for (int i = 0; i < 3; i++) {
        message_t msg = {.request = {1, 10}};
        do {
            TimerTimeout(CLOCK_MONOTONIC, _NTO_TIMEOUT_SEND | _NTO_TIMEOUT_REPLY, NULL, &limit, NULL);
        } while (MsgSend(coid, &msg, sizeof msg, NULL, 0) == -1 && errno == ETIMEDOUT);
    }
    return arg;
}

int main(int argc, char **argv) {
    chid = ChannelCreate(0);
    pthread_t serving = start(server, NULL);
    begin_noise(argc, argv);
    pthread_t one = start(client, NULL), two = start(client, NULL);
    join(one);
    join(two);
    MsgSendPulse(attach(chid), 10, 1, 0);
    join(serving);
    end_noise();
    assert(balance == 60);
    return 0;
}
