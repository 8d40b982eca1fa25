/* Priority inversion by a mutex: a thread of low priority sends while it holds the lock. The server receives messages
 * of greater priority first, so the lock isn't released while two threads of middle priority have requests. The thread
 * of high priority waits for the lock too long. With -DRIGHT the first thread sends after it has released the lock. */
#include "common.h"

#include <time.h>

enum { LOW = 5, MIDDLE = 10, HIGH = 15, REQUESTS = 2, MIDDLES = 2 };
enum { WORK = 10, LIMIT = 35 }; /* milliseconds. Without middle priority, at most three requests come first */

static int chid;
static pthread_mutex_t lock = PTHREAD_MUTEX_INITIALIZER;

static void set_priority(int priority) {
    struct sched_param param = {.sched_priority = priority};
    assert(SchedSet(0, 0, SCHED_NOCHANGE, &param) == 0);
}

static void *serve(void *arg) {
    message_t msg;
    for (;;) {
        int rcvid = MsgReceive(chid, &msg, sizeof msg, NULL);
        if (rcvid == 0) return arg;
        delay(WORK);
        MsgReply(rcvid, EOK, NULL, 0);
    }
}

static void ask(void) {
    message_t msg = {.request = {1, 0}};
    assert(MsgSend(attach(chid), &msg, sizeof msg, NULL, 0) == EOK);
}

static void *low(void *arg) {
    set_priority(LOW);
    pthread_mutex_lock(&lock);
#ifdef RIGHT
    pthread_mutex_unlock(&lock);
    ask();
#else
    ask();
    pthread_mutex_unlock(&lock);
#endif
    return arg;
}

static void *middle(void *arg) {
    set_priority(MIDDLE);
    for (int i = 0; i < REQUESTS; i++) ask();
    return arg;
}

static void *high(void *arg) {
    struct timespec until;
    set_priority(HIGH);
    clock_gettime(CLOCK_REALTIME, &until);
    nsec2timespec(&until, timespec2nsec(&until) + LIMIT * 1000000ull);
    assert(pthread_mutex_timedlock(&lock, &until) == 0);
    pthread_mutex_unlock(&lock);
    return arg;
}

int main(void) {
    pthread_t threads[MIDDLES + 2];
    chid = ChannelCreate(0);
    pthread_t serving = start(serve, NULL);
    threads[0] = start(low, NULL);
    for (int i = 0; i < MIDDLES; i++) threads[1 + i] = start(middle, NULL);
    threads[MIDDLES + 1] = start(high, NULL);
    for (int i = 0; i < MIDDLES + 2; i++) join(threads[i]);
    MsgSendPulse(attach(chid), 10, 1, 0);
    join(serving);
    return 0;
}
