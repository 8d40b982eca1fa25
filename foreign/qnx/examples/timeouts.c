/* Timeouts in each state. A server gets a pulse to unblock a client, and decides itself. */
#include <errno.h>
#include <pthread.h>
#include <stdio.h>
#include <stdlib.h>
#include <string.h>
#include <sys/neutrino.h>
#include <time.h>

static int plain, told;

static void *server(void *arg)
{
    union {
        struct _pulse pulse;
        char text[16];
    } msg;
    struct _msg_info info;
    int held = 0;

    for (;;) {
        int rcvid = MsgReceive(told, &msg, sizeof msg, NULL);
        if (rcvid == -1)
            return arg;
        if (rcvid > 0) {
            held = rcvid; /* without a reply, until the client is to be unblocked */
            continue;
        }
        if (msg.pulse.code != _PULSE_CODE_UNBLOCK)
            continue;
        MsgInfo(held, &info);
        printf("server: the client wants to be unblocked: %s\n",
               info.flags & _NTO_MI_UNBLOCK_REQ && msg.pulse.value.sival_int == held ? "yes" : "no");
        MsgError(held, ECANCELED);
    }
}

static void set_timeout(int states, long ms)
{
    uint64_t timeout = (uint64_t)ms * 1000000;
    struct sigevent event;

    SIGEV_UNBLOCK_INIT(&event);
    TimerTimeout(CLOCK_MONOTONIC, states, &event, &timeout, NULL);
}

int main(void)
{
    pthread_t tid;
    char text[16];
    struct timespec time = {0, 5 * 1000000}, old;

    plain = ChannelCreate(0);
    told = ChannelCreate(_NTO_CHF_UNBLOCK);
    pthread_create(&tid, NULL, server, NULL);
    int to_plain = ConnectAttach(0, 0, plain, _NTO_SIDE_CHANNEL, 0);
    int to_told = ConnectAttach(0, 0, told, _NTO_SIDE_CHANNEL, 0);

    set_timeout(_NTO_TIMEOUT_RECEIVE, 5);
    if (MsgReceive(plain, text, sizeof text, NULL) == -1)
        printf("RECEIVE-blocked: %s\n", strerror(errno));
    set_timeout(_NTO_TIMEOUT_SEND | _NTO_TIMEOUT_REPLY, 5);
    if (MsgSend(to_plain, "a", 2, text, sizeof text) == -1)
        printf("SEND-blocked: %s\n", strerror(errno));
    set_timeout(_NTO_TIMEOUT_REPLY, 5); /* it may be SEND-blocked for longer before */
    if (MsgSend(to_told, "b", 2, text, sizeof text) == -1)
        printf("REPLY-blocked: %s\n", strerror(errno));
    TimerTimeout(CLOCK_MONOTONIC, _NTO_TIMEOUT_RECEIVE, NULL, NULL, NULL);
    if (MsgReceive(plain, text, sizeof text, NULL) == -1)
        printf("not a moment: %s\n", strerror(errno));
    timer_timeout(CLOCK_REALTIME, _NTO_TIMEOUT_RECEIVE, NULL, &time, NULL);
    timer_timeout(CLOCK_REALTIME, 0, NULL, NULL, &old);
    printf("taken back: %ld ms\n", old.tv_nsec / 1000000);
    ChannelDestroy(told);
    pthread_join(tid, NULL);
    return EXIT_SUCCESS;
}
