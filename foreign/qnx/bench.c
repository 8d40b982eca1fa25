/* bench CLIENTS SERVERS ROUNDS
 *
 * Prints the microseconds of a round trip, like foreign/threads/bench.c. A client sends 4 bytes with a reply
 * buffer of 8. A server receives them into 16 bytes, and replies with 4. */
#include <pthread.h>
#include <stdint.h>
#include <stdio.h>
#include <stdlib.h>
#include <sys/neutrino.h>
#include <time.h>

static int clients, servers, rounds, chid;

static void want(int holds) {
    if (!holds) abort();
}

static void *serve(void *argument) {
    uint8_t room[16];
    for (;;) {
        int rcvid = MsgReceive(chid, room, sizeof room, NULL);
        if (rcvid < 0) return argument;
        want(MsgReply(rcvid, 0, room, 4) == 0);
    }
}

static void *ask(void *argument) {
    int coid = ConnectAttach(ND_LOCAL_NODE, 0, chid, _NTO_SIDE_CHANNEL, 0);
    for (int round = 0; round < rounds; round++) {
        int32_t sent = round, back[2] = {0, 0};
        want(MsgSend(coid, &sent, sizeof sent, back, sizeof back) == 0 && back[0] == sent);
    }
    return argument;
}

static double seconds(void) {
    struct timespec t;
    clock_gettime(CLOCK_MONOTONIC, &t);
    return (double)t.tv_sec + (double)t.tv_nsec / 1e9;
}

int main(int count, char **words) {
    pthread_t running[60];
    if (count < 4 || atoi(words[3]) < 1) return 2;
    clients = atoi(words[1]);
    servers = atoi(words[2]);
    rounds = atoi(words[3]);
    want(clients > 0 && servers > 0 && clients + servers < 60);
    chid = ChannelCreate(0);
    double start = seconds();
    for (int at = 0; at < clients + servers; at++)
        want(pthread_create(&running[at], NULL, at < servers ? serve : ask, NULL) == 0);
    for (int at = servers; at < clients + servers; at++) pthread_join(running[at], NULL);
    double taken = seconds() - start;
    want(ChannelDestroy(chid) == 0);
    for (int at = 0; at < servers; at++) pthread_join(running[at], NULL);
    printf("%.2f us\n", taken / clients * 1e6 / rounds);
    return 0;
}
