/* bench CLIENTS SERVERS ROUNDS [BUFFER [PAUSE]]: prints the microseconds of a round trip, for
 * bench/roundtrips.py. A client sends 4 bytes with room for 8. A server receives them into BUFFER (16) bytes
 * and replies with 4. A client waits PAUSE milliseconds before it sends. If PAUSE is less than 0, a server
 * waits for -PAUSE milliseconds before it receives.
 */
#include <sys/neutrino.h>

#include <pthread.h>
#include <stdatomic.h>
#include <stdio.h>
#include <stdlib.h>
#include <unistd.h>

enum { SERVERS = 1, CLIENTS = 2 };

static neutrino *kernel;
static int clients, servers, rounds, pause_ms;
static size_t size = 16;
static _Atomic int chid;

static void want(int holds) {
    if (!holds) abort();
}

static void *serve(void *number) {
    want(neutrino_join(kernel, (int)(intptr_t)number) == 0);
    uint8_t *room = calloc(size, 1);
    for (;;) {
        if (pause_ms < 0) usleep((useconds_t)-pause_ms * 1000);
        int rcvid = MsgReceive(chid, room, size, NULL);
        if (rcvid < 0) break;
        want(MsgReply(rcvid, 0, room, 4) == 0);
    }
    free(room);
    neutrino_leave();
    return NULL;
}

static void *ask(void *number) {
    want(neutrino_join(kernel, (int)(intptr_t)number) == 0);
    int coid = ConnectAttach(ND_LOCAL_NODE, SERVERS, chid, _NTO_SIDE_CHANNEL, 0);
    for (int round = 0; round < rounds; round++) {
        int32_t sent = round, back[2] = {0, 0};
        if (pause_ms > 0) usleep((useconds_t)pause_ms * 1000);
        want(MsgSend(coid, &sent, sizeof sent, back, sizeof back) == 0 && back[0] == sent);
    }
    neutrino_leave();
    return NULL;
}

static double seconds(void) {
    struct timespec t;
    clock_gettime(CLOCK_MONOTONIC, &t);
    return (double)t.tv_sec + (double)t.tv_nsec / 1e9;
}

static double between_threads(void) {
    struct neutrino_thread threads[64];
    pthread_t running[64];
    int count = clients + servers;
    want(clients > 0 && servers > 0 && count <= 62);
    for (int at = 0; at < count; at++)
        threads[at] = (struct neutrino_thread){(uint8_t)(at + 1), at < servers ? SERVERS : CLIENTS, 10};
    want((kernel = neutrino_open(threads, (size_t)count)) != NULL);
    want(neutrino_join(kernel, 1) == 0);
    chid = ChannelCreate(0);
    want(chid > 0 && neutrino_leave() == 0);
    double start = seconds();
    for (intptr_t at = 0; at < count; at++)
        want(pthread_create(&running[at], NULL, at < servers ? serve : ask, (void *)(at + 1)) == 0);
    for (int at = servers; at < count; at++) pthread_join(running[at], NULL);
    double taken = seconds() - start;
    want(neutrino_shutdown(kernel) == 0);
    for (int at = 0; at < servers; at++) pthread_join(running[at], NULL);
    want(neutrino_close(kernel) == 0);
    return taken / clients;
}

int main(int count, char **words) {
    if (count < 4 || atoi(words[3]) < 1) return 2;
    clients = atoi(words[1]);
    servers = atoi(words[2]);
    rounds = atoi(words[3]);
    if (count > 4) size = (size_t)atol(words[4]);
    if (count > 5) pause_ms = atoi(words[5]);
    printf("%.2f us\n", between_threads() * 1e6 / rounds);
    return 0;
}
