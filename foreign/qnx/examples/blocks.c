/* A file server that moves large requests in blocks, by MsgRead and MsgWrite. */
#include <errno.h>
#include <pthread.h>
#include <stdio.h>
#include <stdlib.h>
#include <string.h>
#include <sys/neutrino.h>

#define SIZE 300000
#define BLOCK 4096

enum { FS_WRITE = 1, FS_READ };

struct head {
    uint16_t type;
    uint32_t nbytes;
};

static int chid;
static unsigned char file[SIZE];

static ssize_t read_blocks(int rcvid, size_t nbytes)
{
    size_t done = 0;

    while (done < nbytes) {
        size_t want = nbytes - done < BLOCK ? nbytes - done : BLOCK;
        ssize_t got = MsgRead(rcvid, file + done, want, sizeof(struct head) + done);
        if (got <= 0)
            break; /* the client sent less than it said */
        done += (size_t)got;
    }
    return (ssize_t)done;
}

static void write_blocks(int rcvid, size_t nbytes)
{
    for (size_t done = 0; done < nbytes; done += BLOCK)
        MsgWrite(rcvid, file + done, nbytes - done < BLOCK ? nbytes - done : BLOCK, done);
}

static void *server(void *arg)
{
    struct head head;
    struct _msg_info info;
    int rcvid;

    while ((rcvid = MsgReceive(chid, &head, sizeof head, &info)) != -1) {
        if (head.nbytes > SIZE) {
            MsgError(rcvid, EFBIG);
        } else if (head.type == FS_WRITE) {
            MsgReply(rcvid, read_blocks(rcvid, head.nbytes), NULL, 0);
        } else {
            write_blocks(rcvid, head.nbytes);
            MsgReply(rcvid, (long)info.dstmsglen, NULL, 0);
        }
    }
    printf("server: %s\n", strerror(errno));
    return arg;
}

int main(void)
{
    static unsigned char data[SIZE], back[SIZE];
    struct head head = {FS_WRITE, SIZE};
    pthread_t tid;
    iov_t parts[2];

    for (int i = 0; i < SIZE; i++)
        data[i] = (unsigned char)(i * 7 + i / 251);
    chid = ChannelCreate(0);
    int coid = ConnectAttach(0, 0, chid, _NTO_SIDE_CHANNEL, 0);
    pthread_create(&tid, NULL, server, NULL);
    SETIOV(parts + 0, &head, sizeof head);
    SETIOV(parts + 1, data, SIZE);
    printf("written: %ld\n", MsgSendvs(coid, parts, 2, NULL, 0));
    head.type = FS_READ;
    printf("room for: %ld\n", MsgSend(coid, &head, sizeof head, back, sizeof back));
    printf("the same: %s\n", memcmp(data, back, SIZE) == 0 ? "yes" : "no");
    head.type = FS_WRITE;
    SETIOV(parts + 1, data, 1000);
    printf("of less than said: %ld\n", MsgSendvs(coid, parts, 2, NULL, 0));
    head.nbytes = SIZE + 1;
    if (MsgSend(coid, &head, sizeof head, NULL, 0) == -1)
        printf("too much: %s\n", strerror(errno));
    ChannelDestroy(chid);
    pthread_join(tid, NULL);
    return EXIT_SUCCESS;
}
