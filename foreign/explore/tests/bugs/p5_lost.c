/* A lost pulse: the consumer says that it is idle after it has looked, and the producer tells only an idle one. */
#include "common.h"

enum { ITEMS = 3 };

static int chid, queued, idle;
static pthread_mutex_t lock = PTHREAD_MUTEX_INITIALIZER;

static void *consumer(void *arg) {
    struct _pulse pulse;
    for (int taken = 0; taken < ITEMS;) {
        pthread_mutex_lock(&lock);
        int count = queued;
        queued = 0;
        pthread_mutex_unlock(&lock);
        taken += count;
        if (count || taken == ITEMS) continue;
        pthread_mutex_lock(&lock);
        idle = 1;
        pthread_mutex_unlock(&lock);
        MsgReceivePulse(chid, &pulse, sizeof pulse, NULL);
    }
    return arg;
}

static void *producer(void *arg) {
    int coid = attach(chid);
    for (int i = 0; i < ITEMS; i++) {
        pthread_mutex_lock(&lock);
        int tells = idle;
        queued++;
        idle = 0;
        pthread_mutex_unlock(&lock);
        if (tells) MsgSendPulse(coid, 10, 1, 0);
    }
    return arg;
}

int main(int argc, char **argv) {
    chid = ChannelCreate(0);
    pthread_t taking = start(consumer, NULL);
    begin_noise(argc, argv);
    pthread_t giving = start(producer, NULL);
    join(giving);
    join(taking);
    end_noise();
    return 0;
}
