/* A client opens the name of the log, and starts the log if there is none. If two clients open at a time, both start
 * one, and the second can not attach its name. With -DRIGHT that one ends, and its client uses the other. */
#include "common.h"

#include <sys/dispatch.h>

static void *log_lines(void *arg) {
    message_t msg;
    name_attach_t *attached = name_attach(NULL, "log", 0);
#ifdef RIGHT
    if (!attached) return arg;
#endif
    assert(attached);
    for (;;) {
        int rcvid = MsgReceive(attached->chid, &msg, sizeof msg, NULL);
        if (rcvid > 0) MsgReply(rcvid, EOK, NULL, 0);
    }
}

static void *write_line(void *arg) {
    message_t msg = {.request = {1, 0}};
    int coid = name_open("log", 0);
    if (coid == -1) start(log_lines, NULL);
    while (coid == -1) {
        delay(10);
        coid = name_open("log", 0);
    }
    assert(MsgSend(coid, &msg, sizeof msg, NULL, 0) == EOK);
    name_close(coid);
    return arg;
}

int main(void) {
    pthread_t clients[] = {start(write_line, NULL), start(write_line, NULL)};
    for (int i = 0; i < 2; i++) join(clients[i]);
    return 0;
}
