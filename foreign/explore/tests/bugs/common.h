/* The common parts of the programs with planted bugs. */
#include <assert.h>
#include <errno.h>
#include <pthread.h>
#include <stdbool.h>
#include <stdint.h>
#include <stdio.h>
#include <stdlib.h>
#include <string.h>
#include <sys/neutrino.h>
#include <unistd.h>

typedef union {
    uint16_t type;
    struct _pulse pulse;
    struct {
        uint16_t type;
        int32_t number;
    } request;
} message_t;

static inline int attach(int chid) { return ConnectAttach(ND_LOCAL_NODE, 0, chid, _NTO_SIDE_CHANNEL, 0); }

static inline pthread_t start(void *(*work)(void *), void *arg) {
    pthread_t thread;
    assert(pthread_create(&thread, NULL, work, arg) == 0);
    return thread;
}

static inline void join(pthread_t thread) { assert(pthread_join(thread, NULL) == 0); }

/* Pairs of threads that talk on a channel of their own, so that there are calls that have nothing to do with the bug.
 */
static inline void *noise_server(void *arg) {
    int chid = *(int *)arg;
    message_t msg;
    for (;;) {
        int rcvid = MsgReceive(chid, &msg, sizeof msg, NULL);
        if (rcvid <= 0) return NULL;
        MsgReply(rcvid, EOK, &msg, sizeof msg);
    }
}

static inline void *noise_client(void *arg) {
    int coid = attach(*(int *)arg);
    message_t msg = {.request = {1, 0}};
    for (int i = 0; i < 3; i++) assert(MsgSend(coid, &msg, sizeof msg, &msg, sizeof msg) == EOK);
    MsgSendPulse(coid, 10, 1, 0);
    return NULL;
}

static int noise_chids[8];
static pthread_t noise_threads[16];
static int noise_count;

static inline void begin_noise(int argc, char **argv) {
    noise_count = argc > 1 ? atoi(argv[1]) : 0;
    for (int i = 0; i < noise_count; i++) {
        noise_chids[i] = ChannelCreate(0);
        noise_threads[2 * i] = start(noise_server, &noise_chids[i]);
        noise_threads[2 * i + 1] = start(noise_client, &noise_chids[i]);
    }
}

static inline void end_noise(void) {
    for (int i = 0; i < 2 * noise_count; i++) join(noise_threads[i]);
}
