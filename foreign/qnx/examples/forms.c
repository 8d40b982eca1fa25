/* The forms that return their errors, and the forms that aren't cancellation points. */
#include <errno.h>
#include <pthread.h>
#include <stdio.h>
#include <stdlib.h>
#include <string.h>
#include <sys/neutrino.h>

static int chid;

static void *server(void *arg)
{
    char text[16];
    int rcvid;

    while ((rcvid = MsgReceive_r(chid, text, sizeof text, NULL)) > 0) {
        if (strcmp(text, "wrong") == 0)
            MsgError_r(rcvid, EPERM);
        else
            MsgReply_r(rcvid, 3, text, sizeof text);
    }
    printf("server: %s\n", strerror(-rcvid));
    return arg;
}

static void *never_cancelled(void *coid)
{
    long status;

    pthread_cancel(pthread_self()); /* stays pending, since MsgSendnc isn't a cancellation point */
    status = MsgSendnc(*(int *)coid, "nc", 3, NULL, 0);
    printf("MsgSendnc: %ld\n", status);
    MsgSend(*(int *)coid, "never sent", 11, NULL, 0);
    return NULL;
}

int main(void)
{
    char text[16];
    struct _msg_info info;
    pthread_t tid, other;
    void *result;

    errno = 0;
    printf("MsgSend_r: %s\n", strerror((int)-MsgSend_r(-1, "", 1, NULL, 0)));
    printf("MsgReceive_r: %s\n", strerror(-MsgReceive_r(0, text, sizeof text, NULL)));
    printf("MsgReply_r: %s\n", strerror(MsgReply_r(99, 0, NULL, 0)));
    printf("MsgInfo_r: %s\n", strerror(MsgInfo_r(99, &info)));
    printf("MsgSendPulse_r: %s\n", strerror(MsgSendPulse_r(-1, 10, 1, 0)));
    printf("ConnectDetach_r: %s\n", strerror(ConnectDetach_r(12345)));
    printf("ChannelDestroy_r: %s\n", strerror(ChannelDestroy_r(12345)));
    printf("errno: %d\n", errno);
    chid = ChannelCreate_r(0);
    int coid = ConnectAttach_r(0, 0, chid, _NTO_SIDE_CHANNEL, 0);
    pthread_create(&tid, NULL, server, NULL);
    printf("right: %ld\n", MsgSend_r(coid, "right", 6, text, sizeof text));
    printf("wrong: %s\n", strerror((int)-MsgSend_r(coid, "wrong", 6, text, sizeof text)));
    pthread_create(&other, NULL, never_cancelled, &coid);
    pthread_join(other, &result);
    printf("cancelled behind it: %s\n", result == PTHREAD_CANCELED ? "yes" : "no");
    ChannelDestroy_r(chid);
    pthread_join(tid, NULL);
    return EXIT_SUCCESS;
}
