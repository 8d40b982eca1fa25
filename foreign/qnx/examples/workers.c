/* A pool of handlers: threads of thread_pool_create that each block and handle in turn. */
#define THREAD_POOL_PARAM_T dispatch_context_t
#include <errno.h>
#include <pthread.h>
#include <stdio.h>
#include <stdlib.h>
#include <string.h>
#include <sys/dispatch.h>
#include <sys/iofunc.h>
#include <sys/neutrino.h>

#define MSG_SQUARE 0x1000
#define CLIENTS 8
#define ROUNDS 25

typedef struct {
    uint16_t type;
    int32_t number;
} request_t;

static int coid;

static int square(message_context_t *ctp, int code, unsigned flags, void *handle)
{
    request_t *request = (request_t *)ctp->msg;
    int32_t answer = request->number * request->number;

    (void)code, (void)flags, (void)handle;
    delay(1);
    return MsgReply(ctp->rcvid, EOK, &answer, sizeof answer);
}

static void *client(void *arg)
{
    request_t request = {MSG_SQUARE, (int32_t)(intptr_t)arg};
    long right = 0;

    for (int i = 0; i < ROUNDS; i++, request.number++) {
        int32_t answer = 0;
        if (MsgSend(coid, &request, sizeof request, &answer, sizeof answer) == EOK)
            right += answer == request.number * request.number;
    }
    return (void *)right;
}

static void set_attributes(thread_pool_attr_t *attr, dispatch_t *dpp)
{
    memset(attr, 0, sizeof *attr);
    attr->handle = dpp;
    attr->context_alloc = dispatch_context_alloc;
    attr->context_free = dispatch_context_free;
    attr->block_func = dispatch_block;
    attr->unblock_func = dispatch_unblock;
    attr->handler_func = dispatch_handler;
    attr->lo_water = 2;
    attr->hi_water = 4;
    attr->increment = 1;
    attr->maximum = 6;
}

int main(void)
{
    thread_pool_attr_t attr;
    thread_pool_t *pool;
    dispatch_t *dpp;
    pthread_t clients[CLIENTS];
    long right = 0;
    void *result;

    if ((dpp = dispatch_create()) == NULL) {
        perror("dispatch_create");
        return EXIT_FAILURE;
    }
    if (message_attach(dpp, NULL, MSG_SQUARE, MSG_SQUARE, square, NULL) == -1) {
        perror("message_attach");
        return EXIT_FAILURE;
    }
    set_attributes(&attr, dpp);
    if ((pool = thread_pool_create(&attr, 0)) == NULL) {
        perror("thread_pool_create");
        return EXIT_FAILURE;
    }
    thread_pool_start(pool);
    coid = message_connect(dpp, MSG_FLAG_SIDE_CHANNEL);
    for (int i = 0; i < CLIENTS; i++)
        pthread_create(&clients[i], NULL, client, (void *)(intptr_t)(100 * i));
    for (int i = 0; i < CLIENTS; i++) {
        pthread_join(clients[i], &result);
        right += (long)result;
    }
    printf("%ld of %d answers are right\n", right, CLIENTS * ROUNDS);
    printf("the pool has ended: %s\n", thread_pool_destroy(pool) == EOK ? "yes" : strerror(errno));
    ConnectDetach(coid);
    dispatch_destroy(dpp);
    return EXIT_SUCCESS;
}
