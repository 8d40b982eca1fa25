/* A worker waits for a condition that the server signals when it is asked to begin. The worker looks whether it may
 * begin, and waits later, so a signal between the two is lost. With -DRIGHT it looks and waits under one lock. */
#include "common.h"

static int chid;
static bool may_begin;
static pthread_mutex_t lock = PTHREAD_MUTEX_INITIALIZER;
static pthread_cond_t begins = PTHREAD_COND_INITIALIZER;

static void *serve(void *arg) {
    message_t msg;
    int rcvid = MsgReceive(chid, &msg, sizeof msg, NULL);
    pthread_mutex_lock(&lock);
    may_begin = true;
    pthread_cond_signal(&begins);
    pthread_mutex_unlock(&lock);
    MsgReply(rcvid, EOK, NULL, 0);
    return arg;
}

static void *work(void *arg) {
    pthread_mutex_lock(&lock);
#ifdef RIGHT
    while (!may_begin) pthread_cond_wait(&begins, &lock);
#else
    bool waits = !may_begin;
    pthread_mutex_unlock(&lock);
    pthread_mutex_lock(&lock);
    if (waits) pthread_cond_wait(&begins, &lock);
#endif
    pthread_mutex_unlock(&lock);
    return arg;
}

int main(void) {
    message_t msg = {.request = {1, 0}};
    chid = ChannelCreate(0);
    pthread_t server = start(serve, NULL), worker = start(work, NULL);
    assert(MsgSend(attach(chid), &msg, sizeof msg, NULL, 0) == EOK);
    join(server);
    join(worker);
    return 0;
}
