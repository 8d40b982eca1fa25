/* A shutdown race: the channel is destroyed once all requests are counted as done, which is before the last reply. */
#include "common.h"

enum { WORKERS = 2, CLIENTS = 3 };

static int chid, done;
static pthread_mutex_t lock = PTHREAD_MUTEX_INITIALIZER;
static pthread_cond_t changed = PTHREAD_COND_INITIALIZER;

static void *worker(void *arg) {
    message_t msg;
    for (;;) {
        int rcvid = MsgReceive(chid, &msg, sizeof msg, NULL);
        if (rcvid == -1) return arg; /* the channel is gone */
        pthread_mutex_lock(&lock);
        done++;
        pthread_cond_signal(&changed);
        pthread_mutex_unlock(&lock);
        MsgReply(rcvid, EOK, NULL, 0);
    }
}

static void *client(void *arg) {
    message_t msg = {.request = {1, 0}};
    assert(MsgSend(attach(chid), &msg, sizeof msg, NULL, 0) == EOK);
    return arg;
}

int main(int argc, char **argv) {
    pthread_t workers[WORKERS], clients[CLIENTS];
    chid = ChannelCreate(0);
    for (int i = 0; i < WORKERS; i++) workers[i] = start(worker, NULL);
    begin_noise(argc, argv);
    for (int i = 0; i < CLIENTS; i++) clients[i] = start(client, NULL);
    pthread_mutex_lock(&lock);
    while (done < CLIENTS) pthread_cond_wait(&changed, &lock);
    pthread_mutex_unlock(&lock);
    ChannelDestroy(chid);
    for (int i = 0; i < WORKERS; i++) join(workers[i]);
    for (int i = 0; i < CLIENTS; i++) join(clients[i]);
    end_noise();
    return 0;
}
