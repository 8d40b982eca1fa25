/* A server that its client finds by name. It ends after one message. */
#include <errno.h>
#include <stdio.h>
#include <stdlib.h>
#include <string.h>
#include <sys/dispatch.h>
#include <sys/neutrino.h>

int main(void)
{
    union {
        uint16_t type;
        struct _pulse pulse;
        char text[64];
    } msg;
    struct _msg_info info;
    name_attach_t *attach = name_attach(NULL, "hello", 0);
    int served = 0;

    if (attach == NULL) {
        perror("name_attach");
        return EXIT_FAILURE;
    }
    while (!served) {
        int rcvid = MsgReceive(attach->chid, &msg, sizeof msg, &info);
        if (rcvid == -1) {
            perror("MsgReceive");
            return EXIT_FAILURE;
        }
        if (rcvid == 0) /* a pulse: a client has gone */
            continue;
        if (msg.type == _IO_CONNECT) { /* name_open asks whether the server is there */
            MsgReply(rcvid, EOK, NULL, 0);
            continue;
        }
        printf("server: \"%s\" from another process: %s\n", msg.text, info.pid != getpid() ? "yes" : "no");
        MsgReply(rcvid, 7, "world", sizeof "world");
        served = 1;
    }
    name_detach(attach, 0);
    return EXIT_SUCCESS;
}
