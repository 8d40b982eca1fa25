/* Two consumers wait for items. A consumer that has waited doesn't look again whether there is one, so it takes an item
 * that the other consumer has taken before it had the lock. With -DRIGHT it looks again. */
#include "common.h"

static int items;
static pthread_mutex_t lock = PTHREAD_MUTEX_INITIALIZER;
static pthread_cond_t has_items = PTHREAD_COND_INITIALIZER;

static void *consume(void *arg) {
    pthread_mutex_lock(&lock);
#ifdef RIGHT
    while (!items) pthread_cond_wait(&has_items, &lock);
#else
    if (!items) pthread_cond_wait(&has_items, &lock);
#endif
    items--;
    assert(items >= 0);
    pthread_mutex_unlock(&lock);
    return arg;
}

static void put(void) {
    pthread_mutex_lock(&lock);
    items++;
    pthread_mutex_unlock(&lock);
    pthread_cond_signal(&has_items);
}

int main(void) {
    pthread_t first = start(consume, NULL), second = start(consume, NULL);
    put();
    put();
    join(first);
    join(second);
    return 0;
}
