/* A handle that is used after its close: the reader took it before the owner closed it, and meanwhile the server has
 * given the same number to a third client. */
#include "common.h"

enum { OPEN = 1, READ, CLOSE, SLOTS = 4, STOP = 1 };

static int chid, shared = -1;
static pthread_mutex_t lock = PTHREAD_MUTEX_INITIALIZER;

static void *server(void *arg) {
    int owners[SLOTS] = {0};
    message_t msg;
    struct _msg_info info;
    for (;;) {
        int rcvid = MsgReceive(chid, &msg, sizeof msg, &info);
        if (rcvid == 0) return arg;
        int at = msg.request.number;
        switch (msg.request.type) {
        case OPEN:
            for (at = 0; at < SLOTS && owners[at]; at++) continue;
            owners[at] = msg.request.number;
            MsgReply(rcvid, at, NULL, 0);
            break;
        case READ:
            if (owners[at]) MsgReply(rcvid, owners[at], NULL, 0);
            else MsgError(rcvid, EBADF);
            break;
        case CLOSE:
            owners[at] = 0;
            MsgReply(rcvid, EOK, NULL, 0);
        }
    }
}

static int ask(int coid, int type, int number) {
    message_t msg = {.request = {(uint16_t)type, number}};
    return (int)MsgSend(coid, &msg, sizeof msg, NULL, 0);
}

static void *owner(void *arg) {
    int coid = attach(chid);
    for (int i = 0; i < 2; i++) {
        int handle = ask(coid, OPEN, 100);
        pthread_mutex_lock(&lock);
        shared = handle;
        pthread_mutex_unlock(&lock);
        assert(ask(coid, READ, handle) == 100);
        pthread_mutex_lock(&lock);
        shared = -1;
        pthread_mutex_unlock(&lock);
        assert(ask(coid, CLOSE, handle) == EOK);
    }
    return arg;
}

static void *reader(void *arg) {
    int coid = attach(chid);
    for (int i = 0; i < 4; i++) {
        pthread_mutex_lock(&lock);
        int handle = shared;
        pthread_mutex_unlock(&lock);
        if (handle == -1) continue;
        int from = ask(coid, READ, handle);
        assert(from == 100 || (from == -1 && errno == EBADF));
    }
    return arg;
}

static void *third(void *arg) {
    int coid = attach(chid);
    for (int i = 0; i < 2; i++) {
        int handle = ask(coid, OPEN, 200);
        assert(ask(coid, READ, handle) == 200);
        assert(ask(coid, CLOSE, handle) == EOK);
    }
    return arg;
}

int main(int argc, char **argv) {
    chid = ChannelCreate(0);
    pthread_t serving = start(server, NULL);
    begin_noise(argc, argv);
    pthread_t clients[] = {start(owner, NULL), start(reader, NULL), start(third, NULL)};
    for (int i = 0; i < 3; i++) join(clients[i]);
    MsgSendPulse(attach(chid), 10, STOP, 0);
    join(serving);
    end_noise();
    return 0;
}
