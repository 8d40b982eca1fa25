/* A server with two threads and one account. A client that watches it gets a pulse whenever the balance
 * passes a multiple of 1,000. */
#include <errno.h>
#include <pthread.h>
#include <stdio.h>
#include <stdlib.h>
#include <sys/dispatch.h>
#include <sys/neutrino.h>

#include "bank.h"

static name_attach_t *attach;
static int balance, watcher;
static pthread_mutex_t mutex = PTHREAD_MUTEX_INITIALIZER; /* of the balance */

static int book(int rcvid, int amount)
{
    pthread_mutex_lock(&mutex);
    int before = balance, after = before + amount;
    if (after >= 0)
        balance = after;
    pthread_mutex_unlock(&mutex);
    if (after < 0)
        return ERANGE;
    if (watcher && after / 1000 > before / 1000)
        MsgSendPulse(watcher, 30, CODE_PASSED, after / 1000 * 1000);
    return MsgReply(rcvid, EOK, &after, sizeof after);
}

static int watch(int rcvid, pid_t pid, int chid)
{
    watcher = ConnectAttach(ND_LOCAL_NODE, pid, chid, _NTO_SIDE_CHANNEL, 0);
    return watcher == -1 ? errno : MsgReply(rcvid, EOK, NULL, 0);
}

static void *serve(void *arg)
{
    union {
        uint16_t type;
        struct _pulse pulse;
        bank_request_t request;
    } msg;
    struct _msg_info info;

    for (;;) {
        int rcvid = MsgReceive(attach->chid, &msg, sizeof msg, &info), error = ENOSYS;
        if (rcvid == -1)
            return arg;
        if (rcvid == 0)
            continue;
        switch (msg.type) {
        case _IO_CONNECT:
            error = MsgReply(rcvid, EOK, NULL, 0);
            break;
        case MSG_BOOK:
            error = book(rcvid, msg.request.amount);
            break;
        case MSG_WATCH:
            error = watch(rcvid, info.pid, msg.request.chid);
            break;
        case MSG_CLOSE:
            MsgReply(rcvid, balance, NULL, 0);
            name_detach(attach, 0); /* this ends the other thread's receive */
            return arg;
        }
        if (error != EOK)
            MsgError(rcvid, error);
    }
}

int main(void)
{
    pthread_t second;
    attach = name_attach(NULL, "bank", 0);
    if (attach == NULL) {
        perror("name_attach");
        return EXIT_FAILURE;
    }
    pthread_create(&second, NULL, serve, NULL);
    serve(NULL);
    pthread_join(second, NULL);
    printf("bank: %d\n", balance);
    return EXIT_SUCCESS;
}
