/* A timer is set before the request that it ends is in its place. If the timer comes that early, its pulse finds no
 * request. With -DRIGHT the timer is set last. */
#include "common.h"

#include <time.h>

static struct request {
    bool is_late;
} *volatile present; /* or else a compiler may take it for granted that it was set */
static int chid;
static pthread_mutex_t lock = PTHREAD_MUTEX_INITIALIZER;

static void *watch(void *arg) {
    struct _pulse pulse;
    MsgReceivePulse(chid, &pulse, sizeof pulse, NULL);
    pthread_mutex_lock(&lock);
    present->is_late = true;
    pthread_mutex_unlock(&lock);
    return arg;
}

static void begin(struct request *request) {
    pthread_mutex_lock(&lock);
    present = request;
    pthread_mutex_unlock(&lock);
}

int main(void) {
    static struct request request;
    struct itimerspec time = {.it_value = {0, 10000000}};
    struct sigevent event;
    timer_t timer;
    chid = ChannelCreate(0);
    pthread_t watching = start(watch, NULL);
    SIGEV_PULSE_INIT(&event, attach(chid), 10, 1, 0);
    timer_create(CLOCK_MONOTONIC, &event, &timer);
#ifdef RIGHT
    begin(&request);
    timer_settime(timer, 0, &time, NULL);
#else
    timer_settime(timer, 0, &time, NULL);
    begin(&request);
#endif
    join(watching);
    assert(request.is_late);
    return 0;
}
