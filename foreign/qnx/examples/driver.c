/* A driver: an interrupt's pulse, clients that wait for data, a client that gives up, and a client that is
 * cancelled. */
#include <errno.h>
#include <pthread.h>
#include <stdio.h>
#include <stdlib.h>
#include <string.h>
#include <sys/neutrino.h>
#include <sys/siginfo.h>
#include <time.h>

#define CODE_INTERRUPT _PULSE_CODE_MINAVAIL
#define MAX_WAITING 8

enum { DEV_READ = 1, DEV_STATE };

typedef union {
    uint16_t type;
    struct _pulse pulse;
} message_t;

static int chid, coid, gone;
static int waiting[MAX_WAITING], nwaiting;

static void take(int at)
{
    memmove(waiting + at, waiting + at + 1, (size_t)(--nwaiting - at) * sizeof *waiting);
}

static void handle_pulse(const struct _pulse *pulse)
{
    static int data;

    switch (pulse->code) {
    case CODE_INTERRUPT:
        data += pulse->value.sival_int;
        if (nwaiting) {
            MsgReply(waiting[0], EOK, &data, sizeof data);
            take(0);
        }
        break;
    case _PULSE_CODE_UNBLOCK:
        for (int i = 0; i < nwaiting; i++) {
            if (waiting[i] != pulse->value.sival_int)
                continue;
            MsgError(waiting[i], EINTR);
            take(i);
            gone++;
        }
        break;
    }
}

static void *driver(void *arg)
{
    message_t msg;

    pthread_setname_np(pthread_self(), "driver");
    for (;;) {
        int rcvid = MsgReceive(chid, &msg, sizeof msg, NULL);
        if (rcvid == -1)
            return arg;
        if (rcvid == 0)
            handle_pulse(&msg.pulse);
        else if (msg.type == DEV_STATE)
            MsgReply(rcvid, nwaiting + 100 * gone, NULL, 0);
        else if (nwaiting == MAX_WAITING)
            MsgError(rcvid, EAGAIN);
        else
            waiting[nwaiting++] = rcvid;
    }
}

static long state(void)
{
    message_t msg = {.type = DEV_STATE};
    return MsgSend(coid, &msg, sizeof msg, NULL, 0);
}

static void *reader(void *arg)
{
    message_t msg = {.type = DEV_READ};
    int data = 0;
    long status = MsgSend(coid, &msg, sizeof msg, &data, sizeof data);

    printf("reader %s: %s, %d\n", (const char *)arg, status == -1 ? strerror(errno) : "ok", data);
    return NULL;
}

static void read_for(long ms)
{
    message_t msg = {.type = DEV_READ};
    uint64_t timeout = (uint64_t)ms * 1000000;

    TimerTimeout(CLOCK_MONOTONIC, _NTO_TIMEOUT_REPLY, NULL, &timeout, NULL);
    if (MsgSend(coid, &msg, sizeof msg, NULL, 0) == -1)
        printf("main: %s\n", strerror(errno));
}

int main(void)
{
    pthread_t drives, first, second;
    void *result;

    chid = ChannelCreate(_NTO_CHF_UNBLOCK);
    coid = ConnectAttach(0, 0, chid, _NTO_SIDE_CHANNEL, 0);
    pthread_create(&drives, NULL, driver, NULL);
    pthread_create(&first, NULL, reader, "1");
    while (state() % 100 != 1)
        delay(1);
    MsgSendPulse(coid, 21, CODE_INTERRUPT, 5);
    pthread_join(first, NULL);
    read_for(20);
    pthread_create(&second, NULL, reader, "2");
    while (state() % 100 != 1)
        delay(1);
    pthread_cancel(second);
    pthread_join(second, &result);
    printf("the second reader was cancelled: %s\n", result == PTHREAD_CANCELED ? "yes" : "no");
    printf("two have gone: %s\n", state() == 200 ? "yes" : "no");
    ChannelDestroy(chid);
    pthread_join(drives, NULL);
    return EXIT_SUCCESS;
}
