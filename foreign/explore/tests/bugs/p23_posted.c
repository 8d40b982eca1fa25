/* A device ends a request, or a thread that cancels it. Each looks whether the request is open, and ends it later. If
 * both do, the semaphore is posted twice, and the second post ends the wait for the next request. With -DRIGHT a thread
 * looks and ends it under one lock. */
#include "common.h"

#include <semaphore.h>

enum { REQUESTS = 2 };
static int chid, open_number;
static bool is_done[REQUESTS + 1];
static sem_t ended;
static pthread_mutex_t lock = PTHREAD_MUTEX_INITIALIZER;

static void end(int number) {
    pthread_mutex_lock(&lock);
    bool is_open = open_number == number;
#ifndef RIGHT
    pthread_mutex_unlock(&lock);
    pthread_mutex_lock(&lock);
#endif
    if (is_open) {
        open_number = 0;
        is_done[number] = true;
        sem_post(&ended);
    }
    pthread_mutex_unlock(&lock);
}

static void *device(void *arg) {
    struct _pulse pulse;
    for (int i = 0; i < REQUESTS; i++) {
        MsgReceivePulse(chid, &pulse, sizeof pulse, NULL);
        end(pulse.value.sival_int);
    }
    return arg;
}

static void *cancel(void *arg) {
    end(1);
    return arg;
}

static void request(int coid, int number) {
    pthread_mutex_lock(&lock);
    open_number = number;
    pthread_mutex_unlock(&lock);
    MsgSendPulse(coid, 10, 1, number);
    sem_wait(&ended);
    pthread_mutex_lock(&lock);
    assert(is_done[number]);
    pthread_mutex_unlock(&lock);
}

int main(void) {
    chid = ChannelCreate(0);
    sem_init(&ended, 0, 0);
    int coid = attach(chid);
    pthread_t working = start(device, NULL), cancelling = start(cancel, NULL);
    for (int number = 1; number <= REQUESTS; number++) request(coid, number);
    join(working);
    join(cancelling);
    return 0;
}
