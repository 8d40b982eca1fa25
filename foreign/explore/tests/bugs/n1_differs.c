/* Differs from run to run: how many messages it sends hangs on its pid. */
#include "common.h"

int main(void) {
    int chid = ChannelCreate(0);
    pthread_t serving = start(noise_server, &chid);
    int coid = attach(chid);
    message_t msg = {.request = {1, 0}};
    for (int i = 0; i <= getpid() % 3; i++) MsgSend(coid, &msg, sizeof msg, NULL, 0);
    MsgSendPulse(coid, 10, 1, 0);
    join(serving);
    return 0;
}
