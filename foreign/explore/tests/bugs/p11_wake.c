/* A producer sends a pulse only if the consumer says that it sleeps. The consumer looks at the list, and says later
 * that it sleeps. An item that comes in between wakes nobody. With -DRIGHT it looks and says so under one lock. */
#include "common.h"

enum { ITEMS = 2 };
static int chid, items;
static bool sleeps;
static pthread_mutex_t lock = PTHREAD_MUTEX_INITIALIZER;

static void *produce(void *arg) {
    int coid = attach(chid);
    for (int i = 0; i < ITEMS; i++) {
        pthread_mutex_lock(&lock);
        items++;
        bool wakes = sleeps;
        sleeps = false;
        pthread_mutex_unlock(&lock);
        if (wakes) MsgSendPulse(coid, 10, 1, 0);
    }
    return arg;
}

static bool take(void) {
    pthread_mutex_lock(&lock);
    bool has = items > 0;
    items -= has;
#ifdef RIGHT
    sleeps = !has;
#endif
    pthread_mutex_unlock(&lock);
    return has;
}

int main(void) {
    struct _pulse pulse;
    chid = ChannelCreate(0);
    pthread_t producer = start(produce, NULL);
    for (int taken = 0; taken < ITEMS;) {
        if (take()) {
            taken++;
            continue;
        }
#ifndef RIGHT
        pthread_mutex_lock(&lock);
        sleeps = true;
        pthread_mutex_unlock(&lock);
#endif
        MsgReceivePulse(chid, &pulse, sizeof pulse, NULL);
    }
    join(producer);
    return 0;
}
