/* A server gives its lock to the client that waits longest. That client has gone away meanwhile, so the reply fails,
 * and nobody frees the lock. With -DRIGHT the server then gives it to the next client. */
#include "common.h"

enum { TAKE = 1, FREE, CLIENTS = 3, STOP = 1 };
static int chid, coids[CLIENTS], common_coid;

static bool give(int rcvid) {
    int status = MsgReply(rcvid, EOK, NULL, 0);
#ifdef RIGHT
    return status == EOK;
#else
    (void)status;
    return true;
#endif
}

static void *serve(void *arg) {
    int waiting[CLIENTS], count = 0;
    bool is_taken = false;
    message_t msg;
    for (;;) {
        int rcvid = MsgReceive(chid, &msg, sizeof msg, NULL);
        if (rcvid == 0) return arg;
        if (msg.request.type == TAKE) {
            waiting[count++] = rcvid;
        } else {
            is_taken = false;
            MsgReply(rcvid, EOK, NULL, 0);
        }
        while (count && !is_taken) {
            is_taken = give(waiting[0]);
            memmove(waiting, waiting + 1, (size_t)--count * sizeof *waiting);
        }
    }
}

static void *client(void *arg) {
    message_t take = {.request = {TAKE, 0}}, end = {.request = {FREE, 0}};
    if (MsgSend(*(int *)arg, &take, sizeof take, NULL, 0) == -1) return arg; /* its connection was closed */
    assert(MsgSend(common_coid, &end, sizeof end, NULL, 0) == EOK);
    return arg;
}

int main(void) {
    pthread_t clients[CLIENTS];
    chid = ChannelCreate(0);
    common_coid = attach(chid);
    for (int i = 0; i < CLIENTS; i++) coids[i] = attach(chid);
    pthread_t serving = start(serve, NULL);
    for (int i = 0; i < CLIENTS; i++) clients[i] = start(client, &coids[i]);
    ConnectDetach(coids[1]);
    for (int i = 0; i < CLIENTS; i++) join(clients[i]);
    MsgSendPulse(common_coid, 10, STOP, 0);
    join(serving);
    return 0;
}
