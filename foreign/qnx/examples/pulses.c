/* Pulses: codes, values of 32 and of 64 bits, priorities, and the pulse of a client's last detach. */
#include <pthread.h>
#include <stdio.h>
#include <stdlib.h>
#include <sys/neutrino.h>

#define CODE_TICK (_PULSE_CODE_MINAVAIL + 1)
#define CODE_TEXT (_PULSE_CODE_MINAVAIL + 2)
#define CODE_LAST _PULSE_CODE_MAXAVAIL

typedef union {
    uint16_t type;
    struct _pulse pulse;
} message_t;

int main(void)
{
    message_t msg;
    int chid = ChannelCreate(_NTO_CHF_DISCONNECT);
    int coid = ConnectAttach(0, 0, chid, _NTO_SIDE_CHANNEL, 0);

    MsgSendPulse(coid, 10, CODE_TICK, 1);
    MsgSendPulse(coid, 30, CODE_TICK, -2);
    MsgSendPulsePtr(coid, 20, CODE_TEXT, (void *)"a text by its address");
    MsgSendPulse(coid, 5, CODE_LAST, 0);
    if (MsgSendPulse(coid, 300, CODE_TICK, 0) == -1)
        perror("a priority of 300");
    if (MsgSendPulse(coid + 1, 10, CODE_TICK, 0) == -1)
        perror("another connection");
    ConnectDetach(coid);
    for (int i = 0; i < 5; i++) {
        if (MsgReceivePulse(chid, &msg, sizeof msg, NULL) == -1) {
            perror("MsgReceivePulse");
            return EXIT_FAILURE;
        }
        switch (msg.pulse.code) {
        case CODE_TICK:
            printf("tick %d\n", msg.pulse.value.sival_int);
            break;
        case CODE_TEXT:
            printf("text: %s\n", (const char *)msg.pulse.value.sival_ptr);
            break;
        case CODE_LAST:
            printf("the last of ours\n");
            break;
        case _PULSE_CODE_DISCONNECT:
            printf("all clients have detached\n");
            ConnectDetach(msg.pulse.scoid);
            break;
        }
    }
    ChannelDestroy(chid);
    return EXIT_SUCCESS;
}
