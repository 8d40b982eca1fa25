/* A server holds a reader's request until there is news. If the request is cancelled, it replies, but keeps the rcvid.
 * News that come before the reader asks again answer the stale rcvid, and the reader waits for ever. With -DRIGHT the
 * server forgets the rcvid. */
#include "common.h"

enum { READ = 1, CANCEL, NEWS };

static int chid;

static void *serve(void *arg) {
    message_t msg;
    int held = 0;
    bool has_news = false;
    while (!has_news) {
        int rcvid = MsgReceive(chid, &msg, sizeof msg, NULL);
        if (msg.type == READ) {
            held = rcvid;
            continue;
        }
        if (msg.type == CANCEL && held) {
            MsgError(held, ECANCELED);
#ifdef RIGHT
            held = 0;
#endif
        }
        if (msg.type == NEWS && held) {
            MsgReply(held, EOK, NULL, 0);
            has_news = true;
        }
        MsgReply(rcvid, has_news, NULL, 0);
    }
    return arg;
}

static long ask(int coid, uint16_t type) {
    message_t msg = {.request = {type, 0}};
    return MsgSend(coid, &msg, sizeof msg, NULL, 0);
}

static void *read_news(void *arg) {
    int coid = attach(chid);
    while (ask(coid, READ) == -1) assert(errno == ECANCELED);
    return arg;
}

static void *cancel(void *arg) {
    message_t msg = {.request = {CANCEL, 0}};
    MsgSend(attach(chid), &msg, sizeof msg, NULL, 0);
    return arg;
}

int main(void) {
    chid = ChannelCreate(0);
    pthread_t server = start(serve, NULL), reader = start(read_news, NULL), canceller = start(cancel, NULL);
    int coid = attach(chid);
    while (ask(coid, NEWS) == 0) delay(10);
    join(server);
    ChannelDestroy(chid);
    join(canceller);
    join(reader);
    return 0;
}
