/* Three servers in a circle: each asks the next one about a request of its own client. If all three are asked at a
 * time, each waits for the next one. With -DRIGHT a server asks only a server with a higher number. */
#include "common.h"

enum { SERVERS = 3 };
static int chids[SERVERS];

static void *serve(void *arg) {
    int number = *(int *)arg, next = attach(chids[(number + 1) % SERVERS]);
    message_t msg, question = {.request = {2, 0}};
    for (;;) {
        int rcvid = MsgReceive(chids[number], &msg, sizeof msg, NULL);
        if (rcvid <= 0) return NULL;
        bool asks = msg.request.type == 1;
#ifdef RIGHT
        asks &= number + 1 < SERVERS;
#endif
        if (asks) assert(MsgSend(next, &question, sizeof question, &question, sizeof question) == EOK);
        MsgReply(rcvid, EOK, &msg, sizeof msg);
    }
}

static void *ask(void *arg) {
    int coid = attach(chids[*(int *)arg]);
    message_t msg = {.request = {1, 0}};
    assert(MsgSend(coid, &msg, sizeof msg, &msg, sizeof msg) == EOK);
    return NULL;
}

int main(void) {
    static int numbers[SERVERS] = {0, 1, 2};
    pthread_t servers[SERVERS], clients[SERVERS];
    for (int i = 0; i < SERVERS; i++) chids[i] = ChannelCreate(0);
    for (int i = 0; i < SERVERS; i++) servers[i] = start(serve, &numbers[i]);
    for (int i = 0; i < SERVERS; i++) clients[i] = start(ask, &numbers[i]);
    for (int i = 0; i < SERVERS; i++) join(clients[i]);
    for (int i = 0; i < SERVERS; i++) MsgSendPulse(attach(chids[i]), 10, 1, 0);
    for (int i = 0; i < SERVERS; i++) join(servers[i]);
    return 0;
}
