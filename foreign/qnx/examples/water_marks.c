/* A pool over functions of its own, whose numbers change while it runs. The main thread is one of the pool. */
#define THREAD_POOL_PARAM_T work_t
#define THREAD_POOL_HANDLE_T server_t
typedef struct work work_t;
typedef struct server server_t;

#include <errno.h>
#include <pthread.h>
#include <stdatomic.h>
#include <stdio.h>
#include <stdlib.h>
#include <string.h>
#include <sys/dispatch.h>
#include <sys/neutrino.h>

struct server {
    int chid;
};

struct work {
    server_t *server;
    int rcvid;
    int32_t number;
};

static server_t server;
static thread_pool_t *pool;
static int coid;
static atomic_int made, freed, ends;

static work_t *alloc_work(server_t *own)
{
    work_t *work = calloc(1, sizeof *work);

    if (work != NULL) {
        work->server = own;
        atomic_fetch_add(&made, 1);
    }
    return work;
}

static void free_work(work_t *work)
{
    atomic_fetch_add(&freed, 1);
    free(work);
}

/* Waits for a number. A null result, without EINTR or ETIMEDOUT, ends the thread. */
static work_t *wait_for_work(work_t *work)
{
    work->rcvid = MsgReceive(work->server->chid, &work->number, sizeof work->number, NULL);
    return work->rcvid == -1 ? NULL : work;
}

static int add_one(work_t *work)
{
    int32_t answer = work->number + 1;

    return work->rcvid > 0 ? MsgReply(work->rcvid, EOK, &answer, sizeof answer) : 0;
}

/* Threads wait in MsgReceive, and the end of the channel ends their wait. */
static void end_wait(work_t *work)
{
    if (atomic_exchange(&ends, 1) == 0)
        ChannelDestroy(work->server->chid);
}

/* A thread that still handles a message isn't ready, so the pool may have made one more. */
static void until_threads(int count)
{
    while (atomic_load(&made) - atomic_load(&freed) < count)
        delay(1);
    printf("threads: at least %d\n", count);
}

static void until_none(void)
{
    while (atomic_load(&made) != atomic_load(&freed))
        delay(1);
    printf("threads: 0\n");
}

static void *client(void *arg)
{
    thread_pool_attr_t more;
    int32_t number = 41, answer = 0;

    until_threads(2);
    printf("the pool answers: %ld", MsgSend(coid, &number, sizeof number, &answer, sizeof answer));
    printf(", %d\n", answer);
    printf("limits: %d\n", thread_pool_limits(pool, 4, 5, -1, -1, THREAD_POOL_CONTROL_NONBLOCK));
    until_threads(4);
    memset(&more, 0, sizeof more);
    more.hi_water = 8;
    more.lo_water = 6;
    printf("control: %d\n",
           thread_pool_control(pool, &more, 6, 8, THREAD_POOL_CONTROL_LOWATER | THREAD_POOL_CONTROL_HIWATER));
    until_threads(6);
    more.maximum = 3;
    if (thread_pool_control(pool, &more, 1, 3, THREAD_POOL_CONTROL_MAXIMUM) == -1)
        printf("a maximum below lo_water: %s\n", strerror(errno));
    printf("destroy: %d\n", thread_pool_destroy(pool));
    until_none();
    return arg;
}

int main(void)
{
    pthread_t thread;
    thread_pool_attr_t attr;

    server.chid = ChannelCreate(0);
    coid = ConnectAttach(0, 0, server.chid, _NTO_SIDE_CHANNEL, 0);
    memset(&attr, 0, sizeof attr);
    attr.handle = &server;
    attr.context_alloc = alloc_work;
    attr.context_free = free_work;
    attr.block_func = wait_for_work;
    attr.unblock_func = end_wait;
    attr.handler_func = add_one;
    attr.lo_water = 2;
    attr.increment = 1;
    attr.hi_water = 3;
    attr.maximum = 8;
    setvbuf(stdout, NULL, _IOLBF, 0);
    if ((pool = thread_pool_create(&attr, POOL_FLAG_USE_SELF)) == NULL) {
        perror("thread_pool_create");
        return EXIT_FAILURE;
    }
    pthread_create(&thread, NULL, client, NULL);
    thread_pool_start(pool); /* returns when the pool is destroyed */
    pthread_join(thread, NULL);
    ConnectDetach(coid);
    return EXIT_SUCCESS;
}
