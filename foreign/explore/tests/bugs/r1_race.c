/* Shared memory without a lock: two servers on channels of their own count in one variable. No order of calls shows it;
 * a third variable is passed only by messages, so it has no race. */
#include "common.h"

static int chids[2], counted;
static int passed; /* written by the client before it sends, read by the server while it holds the message */

static void *server(void *arg) {
    int own = (int)(intptr_t)arg;
    message_t msg;
    for (;;) {
        int rcvid = MsgReceive(chids[own], &msg, sizeof msg, NULL);
        if (rcvid == 0) return NULL;
        if (!own) assert(passed == msg.request.number);
#ifndef CLEAN
        counted++;
#endif
        MsgReply(rcvid, EOK, NULL, 0);
    }
}

static void *client(void *arg) {
    int own = (int)(intptr_t)arg, coid = attach(chids[own]);
    for (int i = 0; i < 2; i++) {
        message_t msg = {.request = {1, i}};
        if (!own) passed = i;
        assert(MsgSend(coid, &msg, sizeof msg, NULL, 0) == EOK);
    }
    return NULL;
}

int main(int argc, char **argv) {
    pthread_t servers[2], clients[2];
    for (int i = 0; i < 2; i++) chids[i] = ChannelCreate(0);
    for (int i = 0; i < 2; i++) servers[i] = start(server, (void *)(intptr_t)i);
    begin_noise(argc, argv);
    for (int i = 0; i < 2; i++) clients[i] = start(client, (void *)(intptr_t)i);
    for (int i = 0; i < 2; i++) join(clients[i]);
    for (int i = 0; i < 2; i++) MsgSendPulse(attach(chids[i]), 10, 1, 0);
    for (int i = 0; i < 2; i++) join(servers[i]);
    end_noise();
    return counted == 5;
}
