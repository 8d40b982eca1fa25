/* A transfer locks the account that it takes from, and then the other one. Two opposite transfers wait for one another.
 * With -DRIGHT both lock the account with the lower number first. */
#include "common.h"

static struct {
    pthread_mutex_t lock;
    int money;
} accounts[2] = {{PTHREAD_MUTEX_INITIALIZER, 10}, {PTHREAD_MUTEX_INITIALIZER, 10}};

static void *transfer(void *arg) {
    int from = *(int *)arg, to = 1 - from, first = from;
#ifdef RIGHT
    first = 0;
#endif
    pthread_mutex_lock(&accounts[first].lock);
    pthread_mutex_lock(&accounts[1 - first].lock);
    accounts[from].money--;
    accounts[to].money++;
    pthread_mutex_unlock(&accounts[1 - first].lock);
    pthread_mutex_unlock(&accounts[first].lock);
    return NULL;
}

int main(void) {
    static int numbers[2] = {0, 1};
    pthread_t first = start(transfer, &numbers[0]), second = start(transfer, &numbers[1]);
    join(first);
    join(second);
    assert(accounts[0].money == 10 && accounts[1].money == 10);
    return 0;
}
