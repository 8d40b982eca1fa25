/* A producer sends a pulse only if none is on its way. The consumer takes the items, and says later that it has had the
 * pulse. An item that comes in between wakes nobody. With -DRIGHT it says so before it takes the items. */
#include "common.h"

enum { ITEMS = 3 };
static int chid, items;
static bool is_told;
static pthread_mutex_t lock = PTHREAD_MUTEX_INITIALIZER;

static void *produce(void *arg) {
    int coid = attach(chid);
    for (int i = 0; i < ITEMS; i++) {
        pthread_mutex_lock(&lock);
        items++;
        bool tells = !is_told;
        is_told = true;
        pthread_mutex_unlock(&lock);
        if (tells) MsgSendPulse(coid, 10, 1, 0);
    }
    return arg;
}

static void note_pulse(void) {
    pthread_mutex_lock(&lock);
    is_told = false;
    pthread_mutex_unlock(&lock);
}

static int take_items(void) {
    pthread_mutex_lock(&lock);
    int count = items;
    items = 0;
    pthread_mutex_unlock(&lock);
    return count;
}

int main(void) {
    struct _pulse pulse;
    chid = ChannelCreate(0);
    pthread_t producer = start(produce, NULL);
    for (int taken = 0; taken < ITEMS;) {
        MsgReceivePulse(chid, &pulse, sizeof pulse, NULL);
#ifdef RIGHT
        note_pulse();
        taken += take_items();
#else
        taken += take_items();
        note_pulse();
#endif
    }
    join(producer);
    return 0;
}
