/* A client opens a name that its server may not have attached yet. With -DRIGHT it tries until it is there. */
#include "common.h"

#include <sys/dispatch.h>

static void *serve(void *arg) {
    message_t msg;
    name_attach_t *attached = name_attach(NULL, "printer", 0);
    assert(attached);
    for (int messages = 0; messages < 1;) {
        int rcvid = MsgReceive(attached->chid, &msg, sizeof msg, NULL);
        if (rcvid <= 0) continue;
        messages += msg.type == 1;
        MsgReply(rcvid, EOK, NULL, 0);
    }
    name_detach(attached, 0);
    return arg;
}

int main(void) {
    message_t msg = {.request = {1, 0}};
    pthread_t server = start(serve, NULL);
    int coid = name_open("printer", 0);
#ifdef RIGHT
    while (coid == -1) {
        delay(10);
        coid = name_open("printer", 0);
    }
#endif
    assert(coid != -1);
    assert(MsgSend(coid, &msg, sizeof msg, NULL, 0) == EOK);
    join(server);
    return 0;
}
