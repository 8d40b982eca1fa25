/* Two servers that send to each other. Each has half of a table, and asks the other one for a key of its half, once. */
#include "common.h"

enum { GET = 1, LOOK, KEYS = 6 };

static int chids[2];

static void *server(void *arg) {
    int own = (int)(intptr_t)arg, other = attach(chids[!own]), known[KEYS] = {0};
    message_t msg;
    for (int key = own; key < KEYS; key += 2) known[key] = 100 + key;
    for (;;) {
        int rcvid = MsgReceive(chids[own], &msg, sizeof msg, NULL);
        if (rcvid == 0) return NULL;
        int key = msg.request.number;
        if (msg.request.type == GET && !known[key]) {
            message_t ask = {.request = {LOOK, key}};
            MsgSend(other, &ask, sizeof ask, &known[key], sizeof known[key]);
        }
        MsgReply(rcvid, EOK, &known[key], sizeof known[key]);
    }
}

static void *client(void *arg) {
    int own = (int)(intptr_t)arg, coid = attach(chids[own]), value;
    for (int key = 0; key < KEYS; key++) {
        message_t msg = {.request = {GET, own ? KEYS - 1 - key : key}};
        assert(MsgSend(coid, &msg, sizeof msg, &value, sizeof value) == EOK && value == 100 + msg.request.number);
    }
    return NULL;
}

int main(int argc, char **argv) {
    pthread_t servers[2], clients[2];
    for (int i = 0; i < 2; i++) chids[i] = ChannelCreate(0);
    for (int i = 0; i < 2; i++) servers[i] = start(server, (void *)(intptr_t)i);
    begin_noise(argc, argv);
    for (int i = 0; i < 2; i++) clients[i] = start(client, (void *)(intptr_t)i);
    for (int i = 0; i < 2; i++) join(clients[i]);
    for (int i = 0; i < 2; i++) MsgSendPulse(attach(chids[i]), 10, 1, 0);
    for (int i = 0; i < 2; i++) join(servers[i]);
    end_noise();
    return 0;
}
