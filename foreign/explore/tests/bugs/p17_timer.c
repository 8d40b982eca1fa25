/* A request ends when its device answers, or when its timer expires. If both come at a time, the pulse of the other one
 * stays in the queue, and ends the next request. With -DRIGHT a request takes only pulses with its own number. */
#include "common.h"

#include <time.h>

enum { ANSWERED = 10, EXPIRED };
static int chid;

static void *device(void *arg) {
    int coid = attach(chid);
    delay(10);
    MsgSendPulse(coid, 10, ANSWERED, 1);
    delay(5);
    MsgSendPulse(coid, 10, ANSWERED, 2);
    return arg;
}

/* Returns whether the request with this number was answered in time. */
static bool await_answer(int number) {
    struct itimerspec time = {.it_value = {0, 10000000}};
    struct sigevent event;
    struct _pulse pulse;
    timer_t timer;
    SIGEV_PULSE_INIT(&event, attach(chid), 10, EXPIRED, number);
    timer_create(CLOCK_MONOTONIC, &event, &timer);
    timer_settime(timer, 0, &time, NULL);
    MsgReceivePulse(chid, &pulse, sizeof pulse, NULL);
#ifdef RIGHT
    while (pulse.value.sival_int != number) MsgReceivePulse(chid, &pulse, sizeof pulse, NULL);
#endif
    timer_delete(timer);
    return pulse.code == ANSWERED;
}

int main(void) {
    chid = ChannelCreate(0);
    pthread_t thread = start(device, NULL);
    bool is_first = await_answer(1), is_second = await_answer(2);
    join(thread);
    assert(is_second || !is_first);
    return 0;
}
