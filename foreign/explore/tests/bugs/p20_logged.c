/* A thread sends while it holds the table's lock. The server takes the log's lock for each message, and a third thread
 * takes the table's lock while it holds the log's. So each of them may wait for the next one. With -DRIGHT the thread
 * sends after it has released the lock. */
#include "common.h"

static int chid, entries, lines;
static pthread_mutex_t table = PTHREAD_MUTEX_INITIALIZER, log_lock = PTHREAD_MUTEX_INITIALIZER;

static void *serve(void *arg) {
    message_t msg;
    for (;;) {
        int rcvid = MsgReceive(chid, &msg, sizeof msg, NULL);
        if (rcvid == 0) return arg;
        pthread_mutex_lock(&log_lock);
        lines++;
        pthread_mutex_unlock(&log_lock);
        MsgReply(rcvid, EOK, NULL, 0);
    }
}

static void *enter(void *arg) {
    int coid = attach(chid);
    message_t msg = {.request = {1, 0}};
    pthread_mutex_lock(&table);
    entries++;
#ifdef RIGHT
    pthread_mutex_unlock(&table);
    assert(MsgSend(coid, &msg, sizeof msg, NULL, 0) == EOK);
#else
    assert(MsgSend(coid, &msg, sizeof msg, NULL, 0) == EOK);
    pthread_mutex_unlock(&table);
#endif
    return arg;
}

static void *count(void *arg) {
    pthread_mutex_lock(&log_lock);
    pthread_mutex_lock(&table);
    assert(lines <= entries);
    pthread_mutex_unlock(&table);
    pthread_mutex_unlock(&log_lock);
    return arg;
}

int main(void) {
    chid = ChannelCreate(0);
    pthread_t serving = start(serve, NULL), entering = start(enter, NULL), counting = start(count, NULL);
    join(entering);
    join(counting);
    MsgSendPulse(attach(chid), 10, 1, 0);
    join(serving);
    return 0;
}
