/* A server of two threads that keeps the rcvid of the present request in common, and so answers another client. */
#include "common.h"

enum { THREADS = 2, CLIENTS = 2 };

static int chid, current;
static pthread_mutex_t lock = PTHREAD_MUTEX_INITIALIZER;

static void *server(void *arg) {
    message_t msg;
    for (;;) {
        int rcvid = MsgReceive(chid, &msg, sizeof msg, NULL);
        if (rcvid == 0) return arg;
        pthread_mutex_lock(&lock);
        current = rcvid;
        pthread_mutex_unlock(&lock);
        int32_t answer = 2 * msg.request.number;
        pthread_mutex_lock(&lock);
        rcvid = current;
        pthread_mutex_unlock(&lock);
        MsgReply(rcvid, EOK, &answer, sizeof answer);
    }
}

static void *client(void *arg) {
    int coid = attach(chid);
    for (int i = 0; i < 2; i++) {
        int32_t number = 10 * (int)(intptr_t)arg + i, answer = 0;
        message_t msg = {.request = {1, number}};
        assert(MsgSend(coid, &msg, sizeof msg, &answer, sizeof answer) == EOK);
        assert(answer == 2 * number);
    }
    return NULL;
}

int main(int argc, char **argv) {
    pthread_t servers[THREADS], clients[CLIENTS];
    chid = ChannelCreate(0);
    for (int i = 0; i < THREADS; i++) servers[i] = start(server, NULL);
    begin_noise(argc, argv);
    for (int i = 0; i < CLIENTS; i++) clients[i] = start(client, (void *)(intptr_t)(i + 1));
    for (int i = 0; i < CLIENTS; i++) join(clients[i]);
    int coid = attach(chid);
    for (int i = 0; i < THREADS; i++) MsgSendPulse(coid, 10, 1, 0);
    for (int i = 0; i < THREADS; i++) join(servers[i]);
    end_noise();
    return 0;
}
