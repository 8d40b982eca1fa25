/* Three philosophers whose forks are servers: each sends to its left fork, which holds it until the fork is free, and
 * then to its right one. */
#include "common.h"

enum { N = 3, TAKE = 1, PUT, STOP = 1 };

static int chids[N];

static void *fork_server(void *arg) {
    int own = (int)(intptr_t)arg, taken = 0, held[N], count = 0;
    message_t msg;
    for (;;) {
        int rcvid = MsgReceive(chids[own], &msg, sizeof msg, NULL);
        if (rcvid == 0) return NULL;
        if (msg.request.type == TAKE && taken) {
            held[count++] = rcvid;
            continue;
        }
        taken = msg.request.type == TAKE;
        MsgReply(rcvid, EOK, NULL, 0);
        if (!taken && count) {
            taken = 1;
            MsgReply(held[0], EOK, NULL, 0);
            memmove(held, held + 1, (size_t)--count * sizeof *held);
        }
    }
}

static void ask(int coid, int type) {
    message_t msg = {.request = {(uint16_t)type, 0}};
    assert(MsgSend(coid, &msg, sizeof msg, NULL, 0) == EOK);
}

static void *philosopher(void *arg) {
    int own = (int)(intptr_t)arg, left = attach(chids[own]), right = attach(chids[(own + 1) % N]);
    ask(left, TAKE);
    ask(right, TAKE);
    ask(right, PUT);
    ask(left, PUT);
    return NULL;
}

int main(int argc, char **argv) {
    pthread_t forks[N], eaters[N];
    for (int i = 0; i < N; i++) chids[i] = ChannelCreate(0);
    for (int i = 0; i < N; i++) forks[i] = start(fork_server, (void *)(intptr_t)i);
    begin_noise(argc, argv);
    for (int i = 0; i < N; i++) eaters[i] = start(philosopher, (void *)(intptr_t)i);
    for (int i = 0; i < N; i++) join(eaters[i]);
    for (int i = 0; i < N; i++) MsgSendPulse(attach(chids[i]), 10, STOP, 0);
    for (int i = 0; i < N; i++) join(forks[i]);
    end_noise();
    return 0;
}
