/* Data that passes through a client. By a key the server checks that the data came back unchanged. */
#include <pthread.h>
#include <stdio.h>
#include <stdlib.h>
#include <string.h>
#include <sys/neutrino.h>

#define PRIVATE_KEY 0x5a17u

enum { MSG_GET = 1, MSG_CHECK };

struct ticket {
    uint16_t type;
    uint32_t key;
    char text[16];
};

static int chid;

static void *server(void *arg)
{
    struct ticket msg;
    iov_t iov;
    int rcvid;

    SETIOV(&iov, msg.text, sizeof msg.text);
    while ((rcvid = MsgReceive(chid, &msg, sizeof msg, NULL)) > 0) {
        if (msg.type == MSG_GET) {
            memset(msg.text, 0, sizeof msg.text);
            strcpy(msg.text, "two seats");
            MsgKeyData(rcvid, _NTO_KEYDATA_CALCULATE, PRIVATE_KEY, &msg.key, &iov, 1);
            MsgReply(rcvid, EOK, &msg, sizeof msg);
        } else {
            MsgReply(rcvid, MsgKeyData(rcvid, _NTO_KEYDATA_VERIFY, PRIVATE_KEY, &msg.key, &iov, 1), NULL, 0);
        }
    }
    return arg;
}

int main(void)
{
    struct ticket ticket = {.type = MSG_GET};
    pthread_t tid;

    chid = ChannelCreate(0);
    int coid = ConnectAttach(0, 0, chid, _NTO_SIDE_CHANNEL, 0);
    pthread_create(&tid, NULL, server, NULL);
    MsgSend(coid, &ticket, sizeof ticket, &ticket, sizeof ticket);
    ticket.type = MSG_CHECK;
    printf("%s: %s\n", ticket.text, MsgSend(coid, &ticket, sizeof ticket, NULL, 0) ? "changed" : "as it was");
    strcpy(ticket.text, "ten seats");
    printf("%s: %s\n", ticket.text, MsgSend(coid, &ticket, sizeof ticket, NULL, 0) ? "changed" : "as it was");
    ChannelDestroy(chid);
    pthread_join(tid, NULL);
    return EXIT_SUCCESS;
}
