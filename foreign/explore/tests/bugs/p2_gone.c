/* A client that goes away while it is held. The server keeps requests until its device is ready; a connection may be
 * closed meanwhile, and then it takes the failed reply for an error of its own. */
#include "common.h"

enum { WAIT = 1, READY = _PULSE_CODE_MINAVAIL, STOP };

static int chid, coids[2];

static void *server(void *arg) {
    int held[4], count = 0;
    message_t msg;
    for (;;) {
        int rcvid = MsgReceive(chid, &msg, sizeof msg, NULL);
        if (rcvid > 0) {
            held[count++] = rcvid;
        } else if (msg.pulse.code == READY) {
            while (count > 0) assert(MsgReply(held[--count], EOK, NULL, 0) == 0);
        } else {
            return arg;
        }
    }
}

static void *client(void *arg) {
    message_t msg = {.request = {WAIT, 0}};
    if (MsgSend(*(int *)arg, &msg, sizeof msg, NULL, 0) == -1) assert(errno == EBADF || errno == ESRCH);
    return NULL;
}

static void *device(void *arg) {
    int coid = attach(chid);
    for (int i = 0; i < 3; i++) MsgSendPulse(coid, 10, READY, 0);
    return arg;
}

int main(int argc, char **argv) {
    chid = ChannelCreate(0);
    for (int i = 0; i < 2; i++) coids[i] = attach(chid);
    pthread_t serving = start(server, NULL);
    begin_noise(argc, argv);
    pthread_t one = start(client, &coids[0]), two = start(client, &coids[1]), ready = start(device, NULL);
    join(ready);
    ConnectDetach(coids[1]); /* the second client is not wanted any more */
    join(two);
    MsgSendPulse(attach(chid), 9, READY, 0);
    join(one);
    MsgSendPulse(attach(chid), 8, STOP, 0);
    join(serving);
    end_noise();
    return 0;
}
