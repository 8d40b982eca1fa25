/* A server that is found by name, as in QNX's page of name_attach. */
#include <errno.h>
#include <pthread.h>
#include <stdio.h>
#include <stdlib.h>
#include <string.h>
#include <sys/dispatch.h>
#include <unistd.h>

#define ATTACH_POINT "myname"

/* Our real data comes after this header. */
typedef struct _pulse msg_header_t;

typedef struct _my_data {
    msg_header_t hdr;
    int data;
} my_data_t;

static int server(void)
{
    name_attach_t *attach;
    my_data_t msg;
    int rcvid, sum = 0;

    if ((attach = name_attach(NULL, ATTACH_POINT, 0)) == NULL)
        return EXIT_FAILURE;
    while (1) {
        rcvid = MsgReceive(attach->chid, &msg, sizeof(msg), NULL);
        if (rcvid == -1)
            break;
        if (rcvid == 0) {
            if (msg.hdr.code == _PULSE_CODE_DISCONNECT) {
                ConnectDetach(msg.hdr.scoid);
                break; /* one client is enough for us */
            }
            continue;
        }
        /* name_open() sends a connect message, must EOK this */
        if (msg.hdr.type == _IO_CONNECT) {
            MsgReply(rcvid, EOK, NULL, 0);
            continue;
        }
        /* Some other QNX IO message was received; reject it */
        if (msg.hdr.type > _IO_BASE && msg.hdr.type <= _IO_MAX) {
            MsgError(rcvid, ENOSYS);
            continue;
        }
        printf("server receive %d\n", msg.data);
        sum += msg.data;
        MsgReply(rcvid, EOK, &sum, sizeof sum);
    }
    name_detach(attach, 0);
    return EXIT_SUCCESS;
}

static void *client(void *arg)
{
    my_data_t msg;
    int server_coid, sum = 0;

    while ((server_coid = name_open(ATTACH_POINT, 0)) == -1)
        delay(1); /* the server may not be there yet */
    memset(&msg, 0, sizeof msg);
    for (msg.data = 0; msg.data < 5; msg.data++) {
        if (MsgSend(server_coid, &msg, sizeof(msg), &sum, sizeof sum) == -1)
            break;
    }
    printf("client: sum %d\n", sum);
    msg.hdr.type = _IO_READ;
    if (MsgSend(server_coid, &msg, sizeof(msg), NULL, 0) == -1)
        printf("client: a read: %s\n", strerror(errno));
    name_close(server_coid);
    return arg;
}

int main(void)
{
    pthread_t thread;

    if (name_open("/no/such/name", 0) == -1)
        printf("no such name: %s\n", strerror(errno));
    if (name_attach(NULL, "/wrong", 0) == NULL)
        printf("a name with a slash in front: %s\n", strerror(errno));
    pthread_create(&thread, NULL, client, NULL);
    int status = server();
    pthread_join(thread, NULL);
    return status;
}
