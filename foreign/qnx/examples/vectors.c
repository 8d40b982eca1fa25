/* Messages of several parts: a header and data are received into a ring of blocks. The reply comes from two
 * buffers. */
#include <pthread.h>
#include <stdio.h>
#include <stdlib.h>
#include <string.h>
#include <sys/neutrino.h>

#define BLOCK 8

struct header {
    uint16_t type;
    uint16_t nbytes;
};

static int chid;

static void *server(void *arg)
{
    static char cache[4][BLOCK], rest[64];
    struct header hdr;
    struct _msg_info info;
    iov_t iov[5];

    SETIOV(iov + 0, &hdr, sizeof hdr);
    for (int i = 0; i < 4; i++)
        SETIOV(iov + 1 + i, cache[i], BLOCK);
    int rcvid = MsgReceivev(chid, iov, 5, &info);
    printf("server: type %d, %d data bytes, %d received, %d sent\n", hdr.type, hdr.nbytes, (int)info.msglen,
           (int)info.srcmsglen);
    for (int i = 0; i < 4; i++)
        printf("block %d: %.*s\n", i, BLOCK, cache[i]);
    /* The bytes that didn't fit stay with the client until they are read. */
    SETIOV(iov + 0, rest, 4);
    SETIOV(iov + 1, rest + 4, sizeof rest - 4);
    ssize_t more = MsgReadv(rcvid, iov, 2, sizeof hdr + 4 * BLOCK);
    printf("rest: %zd bytes: %.*s\n", more, (int)more, rest);
    SETIOV_CONST(iov + 0, "written ", 8);
    SETIOV_CONST(iov + 1, "later", 6);
    MsgWritev(rcvid, iov, 2, 10);
    SETIOV(iov + 0, &hdr, sizeof hdr);
    SETIOV_CONST(iov + 1, "answer", 6);
    MsgReplyv(rcvid, EOK, iov, 2);
    return arg;
}

int main(void)
{
    pthread_t tid;
    struct header hdr = {77, 42}, back = {0, 0};
    char data[] = "The quick brown fox jumps over lazy dogs.", text[32];
    iov_t siov[3], riov[2];

    chid = ChannelCreate(0);
    int coid = ConnectAttach(0, 0, chid, _NTO_SIDE_CHANNEL, 0);
    pthread_create(&tid, NULL, server, NULL);
    SETIOV(siov + 0, &hdr, sizeof hdr);
    SETIOV(siov + 1, data, 20);
    SETIOV(siov + 2, data + 20, sizeof data - 20);
    SETIOV(riov + 0, &back, sizeof back);
    SETIOV(riov + 1, text, sizeof text);
    if (MsgSendv(coid, siov, 3, riov, 2) == -1) {
        perror("MsgSendv");
        return EXIT_FAILURE;
    }
    printf("client: type %d, %.6s, %s\n", back.type, text, text + 6);
    pthread_join(tid, NULL);
    return EXIT_SUCCESS;
}
