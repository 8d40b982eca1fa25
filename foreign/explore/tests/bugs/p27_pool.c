/* A pool of two threads. To answer a sum of two numbers or more, its handler asks the pool itself for the rest. If two
 * clients ask at a time, both threads wait for a third one. With -DRIGHT the handler adds the numbers by itself. */
#define THREAD_POOL_PARAM_T ask_t
#define THREAD_POOL_HANDLE_T int
typedef struct ask ask_t;
#include "common.h"

#include <sys/dispatch.h>

struct ask {
    int rcvid;
    message_t msg;
};

static int chid, coid;

static long sum_up_to(int number) {
    message_t msg = {.request = {1, number}};
    return MsgSend(coid, &msg, sizeof msg, NULL, 0);
}

static ask_t *alloc_ask(int *handle) {
    (void)handle;
    return calloc(1, sizeof(ask_t));
}

static void free_ask(ask_t *ask) { free(ask); }

static ask_t *block(ask_t *ask) {
    ask->rcvid = MsgReceive(chid, &ask->msg, sizeof ask->msg, NULL);
    return ask->rcvid == -1 ? NULL : ask;
}

static void unblock(ask_t *ask) { (void)ask; }

static int handle_ask(ask_t *ask) {
    int number = ask->msg.request.number;
#ifdef RIGHT
    long rest = number * (number - 1) / 2;
#else
    long rest = number > 1 ? sum_up_to(number - 1) : 0;
#endif
    return MsgReply(ask->rcvid, number + rest, NULL, 0);
}

static void *client(void *arg) {
    assert(sum_up_to(2) == 3);
    return arg;
}

int main(void) {
    thread_pool_attr_t attr = {.handle = &chid, .lo_water = 2, .increment = 1, .hi_water = 2, .maximum = 2};
    attr.context_alloc = alloc_ask;
    attr.context_free = free_ask;
    attr.block_func = block;
    attr.unblock_func = unblock;
    attr.handler_func = handle_ask;
    chid = ChannelCreate(0);
    coid = attach(chid);
    thread_pool_t *pool = thread_pool_create(&attr, 0);
    assert(pool && thread_pool_start(pool) == EOK);
    pthread_t clients[] = {start(client, NULL), start(client, NULL)};
    for (int i = 0; i < 2; i++) join(clients[i]);
    return 0;
}
