/* A pool of threads that receive on one channel, with priorities: the more urgent client first. */
#include <pthread.h>
#include <sched.h>
#include <stdio.h>
#include <stdlib.h>
#include <sys/neutrino.h>

#define SERVERS 4
#define CLIENTS 12
#define ROUNDS 200
#define CODE_STOP _PULSE_CODE_MINAVAIL

typedef union {
    struct _pulse pulse;
    struct {
        uint16_t type;
        int32_t number;
    } request;
} message_t;

static int chid, coid;

static void *serve(void *arg)
{
    message_t msg;
    long served = 0;

    for (;;) {
        int rcvid = MsgReceive(chid, &msg, sizeof msg, NULL);
        if (rcvid == 0 && msg.pulse.code == CODE_STOP)
            break;
        if (rcvid > 0) {
            int32_t twice = 2 * msg.request.number;
            MsgReply(rcvid, EOK, &twice, sizeof twice);
            served++;
        }
    }
    return (void *)served;
    (void)arg;
}

static void *ask(void *arg)
{
    message_t msg = {.request = {1, (int32_t)(intptr_t)arg}};
    long right = 0;
    int32_t twice;

    for (int i = 0; i < ROUNDS; i++) {
        right += MsgSend(coid, &msg, sizeof msg, &twice, sizeof twice) == EOK && twice == 2 * msg.request.number;
        msg.request.number++;
    }
    return (void *)right;
}

static int start(pthread_t *thread, int priority, void *(*work)(void *), void *arg)
{
    pthread_attr_t attr;
    struct sched_param param = {.sched_priority = priority};

    pthread_attr_init(&attr);
    pthread_attr_setinheritsched(&attr, PTHREAD_EXPLICIT_SCHED);
    pthread_attr_setschedpolicy(&attr, SCHED_RR);
    pthread_attr_setschedparam(&attr, &param);
    int error = pthread_create(thread, &attr, work, arg);
    pthread_attr_destroy(&attr);
    return error;
}

static void *report(void *arg)
{
    struct sched_param param;
    int policy;

    SchedGet(0, 0, &param);
    printf("a thread of priority %d\n", param.sched_curpriority);
    pthread_setschedprio(pthread_self(), 33);
    pthread_getschedparam(pthread_self(), &policy, &param);
    printf("and now %d, %s\n", param.sched_priority, policy == SCHED_RR ? "round robin" : "another policy");
    return arg;
}

int main(void)
{
    pthread_t servers[SERVERS], clients[CLIENTS], reporter;
    long served = 0, right = 0;
    void *result;

    chid = ChannelCreate(_NTO_CHF_FIXED_PRIORITY);
    coid = ConnectAttach(0, 0, chid, _NTO_SIDE_CHANNEL, 0);
    start(&reporter, 27, report, NULL);
    pthread_join(reporter, NULL);
    for (int i = 0; i < SERVERS; i++)
        start(&servers[i], 20, serve, NULL);
    for (int i = 0; i < CLIENTS; i++)
        start(&clients[i], 10 + i, ask, (void *)(intptr_t)(1000 * i));
    for (int i = 0; i < CLIENTS; i++) {
        pthread_join(clients[i], &result);
        right += (long)result;
    }
    for (int i = 0; i < SERVERS; i++)
        MsgSendPulse(coid, -1, CODE_STOP, 0);
    for (int i = 0; i < SERVERS; i++) {
        pthread_join(servers[i], &result);
        served += (long)result;
    }
    printf("%ld served, %ld right\n", served, right);
    return EXIT_SUCCESS;
}
