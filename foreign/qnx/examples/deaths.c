/* Pulses about the end of a thread, of a connection whose server's channel is destroyed, and of a client that
 * detaches. */
#include <pthread.h>
#include <stdio.h>
#include <stdlib.h>
#include <sys/neutrino.h>

static void *worker(void *arg)
{
    return arg;
}

static void show(const struct _pulse *pulse, int coid)
{
    switch (pulse->code) {
    case _PULSE_CODE_THREADDEATH:
        printf("thread %d has ended\n", pulse->value.sival_int);
        break;
    case _PULSE_CODE_COIDDEATH:
        printf("my connection has lost its server: %s\n", pulse->value.sival_int == coid ? "yes" : "another");
        break;
    case _PULSE_CODE_DISCONNECT:
        printf("nobody is connected any more\n");
        ConnectDetach(pulse->scoid);
        break;
    default:
        printf("code %d\n", pulse->code);
    }
}

int main(void)
{
    struct _pulse pulse;
    pthread_t thread;
    int chid = ChannelCreate(_NTO_CHF_THREAD_DEATH | _NTO_CHF_COID_DISCONNECT | _NTO_CHF_DISCONNECT);
    int server = ChannelCreate(0);
    int coid = ConnectAttach(0, 0, server, _NTO_SIDE_CHANNEL, 0);
    int own = ConnectAttach(0, 0, chid, _NTO_SIDE_CHANNEL, 0);

    for (int i = 0; i < 2; i++) {
        pthread_create(&thread, NULL, worker, NULL);
        pthread_join(thread, NULL);
        MsgReceivePulse(chid, &pulse, sizeof pulse, NULL);
        show(&pulse, coid);
    }
    ChannelDestroy(server);
    MsgReceivePulse(chid, &pulse, sizeof pulse, NULL);
    show(&pulse, coid);
    if (MsgSend(coid, NULL, 0, NULL, 0) == -1)
        perror("a send over it");
    ConnectDetach(coid);
    ConnectDetach(own);
    MsgReceivePulse(chid, &pulse, sizeof pulse, NULL);
    show(&pulse, coid);
    ChannelDestroy(chid);
    return EXIT_SUCCESS;
}
