/* A server answers a request when its work is done, and another thread answers it with an error when it is asked to
 * stop. Both may answer the same request. With -DRIGHT only the thread that takes the rcvid answers. */
#include "common.h"

static int chid, held;
static pthread_mutex_t lock = PTHREAD_MUTEX_INITIALIZER;

static int take_held(void) {
    pthread_mutex_lock(&lock);
    int rcvid = held;
#ifdef RIGHT
    held = 0;
#endif
    pthread_mutex_unlock(&lock);
    return rcvid;
}

static void *serve(void *arg) {
    message_t msg;
    int rcvid = MsgReceive(chid, &msg, sizeof msg, NULL);
    pthread_mutex_lock(&lock);
    held = rcvid;
    pthread_mutex_unlock(&lock);
    sched_yield(); /* the work */
    rcvid = take_held();
    if (rcvid) assert(MsgReply(rcvid, EOK, NULL, 0) == EOK);
    return arg;
}

static void *stop(void *arg) {
    int rcvid = take_held();
    if (rcvid) assert(MsgError(rcvid, ECANCELED) == EOK);
    return arg;
}

int main(void) {
    message_t msg = {.request = {1, 0}};
    chid = ChannelCreate(0);
    pthread_t server = start(serve, NULL), stopper = start(stop, NULL);
    MsgSend(attach(chid), &msg, sizeof msg, NULL, 0);
    join(server);
    join(stopper);
    return 0;
}
