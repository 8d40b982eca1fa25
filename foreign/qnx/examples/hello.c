/* A server and its client: MsgSend, MsgReceive, MsgReply. */
#include <errno.h>
#include <pthread.h>
#include <stdio.h>
#include <stdlib.h>
#include <string.h>
#include <sys/neutrino.h>

static int chid;

static void *server(void *arg)
{
    char msg[64];
    struct _msg_info info;

    for (int i = 0; i < 2; i++) {
        int rcvid = MsgReceive(chid, msg, sizeof msg, &info);
        if (rcvid == -1) {
            perror("MsgReceive");
            exit(EXIT_FAILURE);
        }
        printf("server: \"%s\", %d bytes, from my own process: %s\n", msg, (int)info.msglen,
               info.pid == getpid() ? "yes" : "no");
        if (strcmp(msg, "hello") == 0)
            MsgReply(rcvid, 7, "world", sizeof "world");
        else
            MsgError(rcvid, ENOSYS);
    }
    return arg;
}

int main(void)
{
    pthread_t tid;
    char reply[64];

    chid = ChannelCreate(0);
    if (chid == -1) {
        perror("ChannelCreate");
        return EXIT_FAILURE;
    }
    pthread_create(&tid, NULL, server, NULL);
    int coid = ConnectAttach(ND_LOCAL_NODE, 0, chid, _NTO_SIDE_CHANNEL, 0);
    if (coid == -1) {
        perror("ConnectAttach");
        return EXIT_FAILURE;
    }
    long status = MsgSend(coid, "hello", sizeof "hello", reply, sizeof reply);
    printf("client: status %ld, \"%s\"\n", status, reply);
    if (MsgSend(coid, "bye", sizeof "bye", reply, sizeof reply) == -1)
        printf("client: %s\n", strerror(errno));
    pthread_join(tid, NULL);
    ConnectDetach(coid);
    ChannelDestroy(chid);
    return EXIT_SUCCESS;
}
