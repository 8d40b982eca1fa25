/* A server like select. Clients leave events, which it delivers when data comes. A client's second request
 * replaces its first. */
#include <errno.h>
#include <pthread.h>
#include <stdio.h>
#include <stdlib.h>
#include <string.h>
#include <sys/neutrino.h>
#include <sys/siginfo.h>

#define MSG_NOTIFY 0x301
#define MSG_PUT 0x302
#define MSG_GET 0x303
#define PULSE_DATA (_PULSE_CODE_MINAVAIL + 3)
#define PULSE_SHUTDOWN _PULSE_CODE_MAXAVAIL

struct notify_msg {
    uint16_t type;
    uint16_t pad;
    struct sigevent event;
};

struct data_msg {
    uint16_t type;
    uint16_t pad;
    int value;
};

static struct {
    rcvid_t rcvid;
    int scoid;
    struct sigevent event;
    int armed;
} waiting[4];

static int queue[16], head, tail;

static void deliver(void)
{
    for (unsigned i = 0; i < 4; i++) {
        if (!waiting[i].armed)
            continue;
        if (MsgDeliverEvent(waiting[i].rcvid, &waiting[i].event) == -1)
            perror("MsgDeliverEvent");
        waiting[i].armed = 0;
    }
}

static void arm(rcvid_t rcvid, const struct notify_msg *msg, const struct _msg_info *info)
{
    int free_at = -1, own = -1, err;
    for (int i = 0; i < 4; i++) {
        if (waiting[i].armed && waiting[i].scoid == info->scoid && waiting[i].event.sigev_coid == msg->event.sigev_coid)
            own = i;
        else if (!waiting[i].armed && free_at == -1)
            free_at = i;
    }
    if (own == -1)
        own = free_at;
    if ((err = MsgVerifyEvent_r(rcvid, &msg->event)) != EOK) {
        MsgError(rcvid, err);
        return;
    }
    if (head != tail) { /* there is data now */
        MsgReply(rcvid, 1, NULL, 0);
        return;
    }
    waiting[own].rcvid = rcvid;
    waiting[own].scoid = info->scoid;
    waiting[own].event = msg->event;
    waiting[own].armed = 1;
    MsgReply(rcvid, 0, NULL, 0);
}

static void *server(void *arg)
{
    union {
        uint16_t type;
        struct _pulse pulse;
        struct notify_msg notify;
        struct data_msg data;
    } msg;
    struct _msg_info info;
    int chid = (int)(intptr_t)arg;

    for (;;) {
        rcvid_t rcvid = MsgReceive(chid, &msg, sizeof msg, &info);
        if (rcvid == -1)
            return NULL;
        if (rcvid == 0) {
            if (msg.pulse.code == PULSE_SHUTDOWN)
                return NULL;
            continue;
        }
        switch (msg.type) {
        case MSG_NOTIFY:
            arm(rcvid, &msg.notify, &info);
            break;
        case MSG_PUT:
            queue[head++ % 16] = msg.data.value;
            MsgReply(rcvid, EOK, NULL, 0);
            deliver();
            break;
        case MSG_GET:
            if (head == tail)
                MsgError(rcvid, EAGAIN);
            else
                MsgReply(rcvid, queue[tail++ % 16], NULL, 0);
            break;
        default:
            MsgError(rcvid, ENOSYS);
        }
    }
}

static int coid;

static void *producer(void *arg)
{
    struct data_msg put = {MSG_PUT, 0, 0};
    for (put.value = 10; put.value <= 12; put.value++) {
        delay(20);
        if (MsgSend(coid, &put, sizeof put, NULL, 0) == -1)
            perror("put");
    }
    return arg;
}

int main(void)
{
    pthread_t threads[2];
    struct notify_msg ask;
    struct data_msg get = {MSG_GET, 0, 0};
    struct _pulse pulse;
    int chid = ChannelCreate(_NTO_CHF_UNBLOCK | _NTO_CHF_DISCONNECT);
    int own = ChannelCreate(_NTO_CHF_PRIVATE), back, got = 0;

    coid = ConnectAttach(ND_LOCAL_NODE, 0, chid, _NTO_SIDE_CHANNEL, 0);
    back = ConnectAttach(ND_LOCAL_NODE, getpid(), own, _NTO_SIDE_CHANNEL, 0);
    pthread_create(&threads[0], NULL, server, (void *)(intptr_t)chid);
    memset(&ask, 0, sizeof ask);
    ask.type = MSG_NOTIFY;
    SIGEV_PULSE_INIT(&ask.event, back, 12, PULSE_DATA, 4711);
    SIGEV_MAKE_UPDATEABLE(&ask.event);
    if (MsgRegisterEvent(&ask.event, coid) == -1)
        perror("MsgRegisterEvent");
    if (MsgSend(coid, &get, sizeof get, NULL, 0) == -1)
        printf("get: %s\n", strerror(errno));
    pthread_create(&threads[1], NULL, producer, NULL);
    while (got < 3) {
        long now = MsgSend(coid, &ask, sizeof ask, NULL, 0);
        if (now == -1) {
            perror("notify");
            return 1;
        }
        if (now == 0) {
            if (MsgReceivePulse(own, &pulse, sizeof pulse, NULL) == -1)
                perror("MsgReceivePulse");
            if (pulse.code != PULSE_DATA || pulse.value.sival_int != 4711)
                printf("another pulse: %d %d\n", pulse.code, pulse.value.sival_int);
        }
        long value = MsgSend(coid, &get, sizeof get, NULL, 0);
        if (value != -1) {
            printf("got %ld\n", value);
            got++;
        }
    }
    pthread_join(threads[1], NULL);
    ask.event.sigev_coid = 12345;
    if (MsgSend(coid, &ask, sizeof ask, NULL, 0) == -1)
        printf("an event that can't be delivered: %s\n", strerror(errno));
    MsgUnregisterEvent(&ask.event);
    MsgSendPulse(coid, SIGEV_PULSE_PRIO_INHERIT, PULSE_SHUTDOWN, 0);
    pthread_join(threads[0], NULL);
    puts("end");
    return 0;
}
