/* A thread that waits for a flag without a call. */
#include "common.h"

static volatile int chid;

static void *server(void *arg) {
    chid = ChannelCreate(0);
    return arg;
}

int main(void) {
    pthread_t serving = start(server, NULL);
    while (!chid) continue;
    join(serving);
    return 0;
}
