/* A server that delivers events. Clients register an event, get a reply at once, and get a pulse or a signal
 * later. */
#include <errno.h>
#include <pthread.h>
#include <signal.h>
#include <stdio.h>
#include <stdlib.h>
#include <string.h>
#include <sys/neutrino.h>
#include <sys/siginfo.h>

enum { MSG_NOTIFY = 1, MSG_HAPPEN };

struct request {
    uint16_t type;
    struct sigevent event;
};

static int server_chid;
static volatile sig_atomic_t signalled;

static void *server(void *arg)
{
    struct request msg;
    struct sigevent waiting[4];
    int rcvids[4], count = 0;

    for (;;) {
        int rcvid = MsgReceive(server_chid, &msg, sizeof msg, NULL);
        if (rcvid == -1)
            return arg; /* the channel was destroyed */
        switch (msg.type) {
        case MSG_NOTIFY:
            if (MsgVerifyEvent(rcvid, &msg.event) == -1) {
                MsgError(rcvid, errno);
                break;
            }
            rcvids[count] = rcvid;
            waiting[count++] = msg.event;
            MsgReply(rcvid, EOK, NULL, 0);
            break;
        case MSG_HAPPEN:
            for (int i = 0; i < count; i++) {
                if (MsgDeliverEvent(rcvids[i], &waiting[i]) == -1)
                    perror("MsgDeliverEvent");
            }
            MsgReply(rcvid, count, NULL, 0);
            count = 0;
            break;
        }
    }
}

static void on_signal(int signo)
{
    (void)signo;
    signalled = 1;
}

static long ask(int coid, int type, const struct sigevent *event)
{
    struct request msg;

    memset(&msg, 0, sizeof msg);
    msg.type = (uint16_t)type;
    if (event)
        msg.event = *event;
    return MsgSend(coid, &msg, sizeof msg, NULL, 0);
}

int main(void)
{
    pthread_t tid;
    struct sigevent event;
    struct sigaction action;
    struct _pulse pulse;
    sigset_t usr1;

    sigemptyset(&usr1);
    sigaddset(&usr1, SIGUSR1);
    pthread_sigmask(SIG_BLOCK, &usr1, NULL); /* otherwise the signal would end the call that causes it */
    server_chid = ChannelCreate(0);
    pthread_create(&tid, NULL, server, NULL);
    int coid = ConnectAttach(0, 0, server_chid, _NTO_SIDE_CHANNEL, 0);
    int chid = ChannelCreate(0);
    int self = ConnectAttach(0, 0, chid, _NTO_SIDE_CHANNEL, 0);

    memset(&action, 0, sizeof action);
    action.sa_handler = on_signal;
    sigaction(SIGUSR1, &action, NULL);
    SIGEV_PULSE_INIT(&event, self, 21, 5, 1234);
    MsgRegisterEvent(&event, coid);
    printf("a pulse: %ld\n", ask(coid, MSG_NOTIFY, &event));
    SIGEV_SIGNAL_INIT(&event, SIGUSR1);
    printf("a signal: %ld\n", ask(coid, MSG_NOTIFY, &event));
    SIGEV_PULSE_INIT(&event, self + 1, 21, 5, 1234);
    if (ask(coid, MSG_NOTIFY, &event) == -1)
        printf("a pulse over no connection: %s\n", strerror(errno));
    printf("told: %ld\n", ask(coid, MSG_HAPPEN, NULL));
    MsgReceivePulse(chid, &pulse, sizeof pulse, NULL);
    printf("pulse of code %d, value %d\n", pulse.code, pulse.value.sival_int);
    pthread_sigmask(SIG_UNBLOCK, &usr1, NULL);
    while (!signalled)
        delay(1);
    printf("and the signal\n");
    ChannelDestroy(server_chid);
    pthread_join(tid, NULL);
    return EXIT_SUCCESS;
}
