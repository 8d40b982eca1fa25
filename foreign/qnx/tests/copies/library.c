/* A library that sends a pulse to a channel of the program that loads it. */
#include <sys/neutrino.h>

int send_to(int chid);

int send_to(int chid) {
    int coid = ConnectAttach(ND_LOCAL_NODE, 0, chid, _NTO_SIDE_CHANNEL, 0);
    return coid == -1 ? -1 : MsgSendPulse(coid, 10, 1, 42);
}
