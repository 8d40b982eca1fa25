/* A thread that asks again and again for an answer that never comes. */
#include "common.h"

int main(void) {
    int chid = ChannelCreate(0), coid = attach(chid);
    pthread_t serving = start(noise_server, &chid);
    message_t msg = {.request = {1, 0}};
    while (MsgSend(coid, &msg, sizeof msg, &msg, sizeof msg) == EOK && !msg.request.number) delay(10);
    join(serving);
    return 0;
}
