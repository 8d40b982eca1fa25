/* A server keeps the request that it works on in a variable, which a worker reads when it is done. Meanwhile the server
 * has received the next request, so the answer goes to another client. With -DRIGHT the worker gets the request. */
#include "common.h"

enum { CLIENTS = 2 };
static int chid, worker_chid, present, rcvids[CLIENTS];
static pthread_mutex_t lock = PTHREAD_MUTEX_INITIALIZER;

static void *work(void *arg) {
    struct _pulse pulse;
    pthread_setname_np(pthread_self(), "worker");
    for (int i = 0; i < CLIENTS; i++) {
        MsgReceivePulse(worker_chid, &pulse, sizeof pulse, NULL);
        int32_t answer = pulse.value.sival_int >> 16;
        pthread_mutex_lock(&lock);
        int rcvid = present;
        pthread_mutex_unlock(&lock);
#ifdef RIGHT
        rcvid = rcvids[pulse.value.sival_int & 0xffff];
#endif
        MsgReply(rcvid, EOK, &answer, sizeof answer);
    }
    return arg;
}

static void *serve(void *arg) {
    int coid = attach(worker_chid);
    int32_t question;
    pthread_setname_np(pthread_self(), "server");
    for (int i = 0; i < CLIENTS; i++) {
        int rcvid = MsgReceive(chid, &question, sizeof question, NULL);
        rcvids[i] = rcvid;
        pthread_mutex_lock(&lock);
        present = rcvid;
        pthread_mutex_unlock(&lock);
        MsgSendPulse(coid, 10, 1, 2 * question << 16 | i);
    }
    return arg;
}

static void *ask(void *arg) {
    int32_t question = *(int *)arg, answer = 0;
    pthread_setname_np(pthread_self(), question == 3 ? "client3" : "client5");
    assert(MsgSend(attach(chid), &question, sizeof question, &answer, sizeof answer) == EOK);
    assert(answer == 2 * question);
    return NULL;
}

int main(void) {
    static int questions[CLIENTS] = {3, 5};
    pthread_t threads[2 + CLIENTS];
    chid = ChannelCreate(0);
    worker_chid = ChannelCreate(0);
    threads[0] = start(serve, NULL);
    threads[1] = start(work, NULL);
    for (int i = 0; i < CLIENTS; i++) threads[2 + i] = start(ask, &questions[i]);
    for (int i = 0; i < 2 + CLIENTS; i++) join(threads[i]);
    return 0;
}
