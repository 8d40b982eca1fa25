/* Pools of threads: their water marks, and each of their errors. */
#define THREAD_POOL_PARAM_T dispatch_context_t
#include "tests.h"

enum { WORK = 0x600, STOP };

static _Atomic int busy, most_busy, made, freed, goes;

static dispatch_context_t *make_context(dispatch_t *dpp) {
    atomic_fetch_add(&made, 1);
    return dispatch_context_alloc(dpp);
}

static void free_context(dispatch_context_t *ctp) {
    atomic_fetch_add(&freed, 1);
    dispatch_context_free(ctp);
}

/* Keeps its thread busy until goes is set. */
static int keep_busy(message_context_t *ctp, int code, unsigned flags, void *handle) {
    (void)flags;
    (void)handle;
    int now = atomic_fetch_add(&busy, 1) + 1, most = atomic_load(&most_busy);
    while (now > most && !atomic_compare_exchange_weak(&most_busy, &most, now)) continue;
    while (!atomic_load(&goes)) usleep(500);
    atomic_fetch_sub(&busy, 1);
    return MsgReply(ctp->rcvid, code, NULL, 0);
}

static thread_pool_attr_t usual_pool(dispatch_t *dpp) {
    return (thread_pool_attr_t){.handle = dpp,
                                .block_func = dispatch_block,
                                .unblock_func = dispatch_unblock,
                                .handler_func = dispatch_handler,
                                .context_alloc = make_context,
                                .context_free = free_context,
                                .lo_water = 2,
                                .increment = 1,
                                .hi_water = 3,
                                .maximum = 5};
}

/* The workers that are there: they have a context that isn't freed. */
static int workers(void) { return atomic_load(&made) - atomic_load(&freed); }

static void until_workers(int count) {
    for (int tries = 0; workers() != count; tries++) {
        check(tries < 20000);
        usleep(500);
    }
}

static int coid_of_pool;

static void *ask_pool(void *argument) {
    uint16_t type = WORK;
    (void)argument;
    return (void *)MsgSend(coid_of_pool, &type, sizeof type, NULL, 0);
}

static dispatch_t *make_server(void) {
    dispatch_t *dpp = dispatch_create();
    check(dpp && message_attach(dpp, NULL, WORK, WORK, keep_busy, NULL) == 0);
    coid_of_pool = message_connect(dpp, MSG_FLAG_SIDE_CHANNEL);
    atomic_store(&busy, 0);
    atomic_store(&most_busy, 0);
    atomic_store(&made, 0);
    atomic_store(&freed, 0);
    atomic_store(&goes, 0);
    return dpp;
}

/* Threads come up to the maximum while clients wait, and go down to hi_water after that. */
void pools(void) {
    pthread_t clients[8];
    dispatch_t *dpp = make_server();
    thread_pool_attr_t attr = usual_pool(dpp);
    thread_pool_t *pool = thread_pool_create(&attr, 0);
    check(pool && workers() == 0 && thread_pool_start(pool) == EOK);
    until_workers(2);
    clients[0] = start(ask_pool, NULL);
    until_workers(3); /* one more, so that two wait */
    for (int at = 1; at < 8; at++) clients[at] = start(ask_pool, NULL);
    while (atomic_load(&busy) < 5) usleep(500);
    usleep(20000);
    check(workers() == 5 && atomic_load(&busy) == 5 && atomic_load(&made) == 5); /* never more */
    fails(thread_pool_start(pool), EINVAL);
    atomic_store(&goes, 1);
    for (int at = 0; at < 8; at++) check(result_of(clients[at]) == WORK);
    until_workers(3);
    check(atomic_load(&most_busy) == 5 && thread_pool_destroy(pool) == EOK && workers() == 0);
    check(ConnectDetach(coid_of_pool) == 0 && dispatch_destroy(dpp) == 0);
}

/* The numbers of a pool that runs. */
void pool_limits(void) {
    dispatch_t *dpp = make_server();
    thread_pool_attr_t attr = usual_pool(dpp), wrong = attr;
    thread_pool_t *pool = thread_pool_create(&attr, 0);
    check(thread_pool_limits(pool, -1, -1, -1, 2, 0) == EOK && workers() == 0); /* it hasn't started */
    check(thread_pool_control(pool, &attr, 1, 5, THREAD_POOL_CONTROL_LOWATER) == EOK);
    check(thread_pool_start(pool) == EOK && thread_pool_limits(pool, 4, 4, 4, -1, 0) == EOK);
    until_workers(4);
    check(thread_pool_limits(pool, 1, 2, -1, -1, THREAD_POOL_CONTROL_NONBLOCK) == EOK);
    until_workers(2);
    attr.lo_water = 3;
    attr.hi_water = 3;
    unsigned flags = THREAD_POOL_CONTROL_LOWATER | THREAD_POOL_CONTROL_HIWATER;
    check(thread_pool_control(pool, &attr, 3, 4, flags) == EOK);
    until_workers(3); /* not two at a time, since hi_water is 3 */
    attr.maximum = 3;
    attr.increment = 1;
    flags |= THREAD_POOL_CONTROL_MAXIMUM | THREAD_POOL_CONTROL_INCREMENT;
    check(thread_pool_control(pool, &attr, 1, 3, flags) == EOK && workers() == 3);
    check(thread_pool_control(pool, &attr, 9, 1, flags | THREAD_POOL_CONTROL_NONBLOCK) == EOK);
    fails(thread_pool_control(pool, &attr, 9, 1, flags), EINVAL);
    fails(thread_pool_control(NULL, &attr, 1, 1, flags), EINVAL);
    fails(thread_pool_control(pool, NULL, 1, 1, flags), EINVAL);
    fails(thread_pool_control(pool, &attr, 1, 1, 0x100), EINVAL);
    wrong.lo_water = 4;
    fails(thread_pool_control(pool, &wrong, 1, 1, flags), EINVAL);
    fails(thread_pool_limits(pool, 4, 3, -1, -1, 0), EINVAL);
    fails(thread_pool_limits(NULL, 1, 1, 1, 1, 0), EINVAL);
    fails(thread_pool_limits(pool, 1, 1, 1, 1, 0x100), EINVAL);
    check(thread_pool_destroy(pool) == EOK && workers() == 0);
    check(ConnectDetach(coid_of_pool) == 0 && dispatch_destroy(dpp) == 0);
}

static thread_pool_t *own_pool;

static int destroy_own_pool(message_context_t *ctp, int code, unsigned flags, void *handle) {
    (void)code;
    (void)flags;
    (void)handle;
    fails(thread_pool_destroy(own_pool), EDEADLK);
    return MsgReply(ctp->rcvid, 7, NULL, 0);
}

static void *start_with_self(void *pool) { return (void *)(intptr_t)(thread_pool_start(pool) == EOK ? 5 : 6); }

/* The thread that starts a pool is one of it, or ends. */
void pool_selves(void) {
    dispatch_t *dpp = make_server();
    check(message_attach(dpp, NULL, STOP, STOP, destroy_own_pool, NULL) == 0);
    thread_pool_attr_t attr = usual_pool(dpp);
    void *result;
    uint16_t type = STOP;
    attr.lo_water = 1;
    own_pool = thread_pool_create(&attr, POOL_FLAG_USE_SELF);
    pthread_t self = start(start_with_self, own_pool);
    until_workers(1);
    check(MsgSend(coid_of_pool, &type, sizeof type, NULL, 0) == 7);
    check(thread_pool_destroy(own_pool) == EOK && workers() == 0 && result_of(self) == 5);
    own_pool = thread_pool_create(&attr, POOL_FLAG_EXIT_SELF);
    self = start(start_with_self, own_pool);
    check(pthread_join(self, &result) == 0 && result == NULL);
    check(MsgSend(coid_of_pool, &type, sizeof type, NULL, 0) == 7);
    check(thread_pool_destroy(own_pool) == EOK && workers() == 0);
    check(ConnectDetach(coid_of_pool) == 0 && dispatch_destroy(dpp) == 0);
}

static dispatch_context_t *no_context(dispatch_t *dpp) {
    atomic_fetch_add(&made, 1);
    return dpp ? NULL : NULL;
}

/* Ends the channel of the pool, and so its threads. */
static void end_channel(void) {
    struct _server_info info;
    check(ConnectServerInfo(0, coid_of_pool, &info) == coid_of_pool && ChannelDestroy(info.chid) == 0);
    check(ConnectDetach(coid_of_pool) == 0);
}

/* A pool of detached threads, whose attributes are gone before it starts. */
static thread_pool_t *pool_of_detached(thread_pool_attr_t *attr) {
    static pthread_attr_t detached;
    check(pthread_attr_init(&detached) == 0);
    check(pthread_attr_setdetachstate(&detached, PTHREAD_CREATE_DETACHED) == 0);
    attr->attr = &detached;
    thread_pool_t *pool = thread_pool_create(attr, 0);
    check(pthread_attr_destroy(&detached) == 0);
    memset(&detached, 0x55, sizeof detached);
    return pool;
}

/* Threads end if they have no context, or if what they wait for is gone. */
void pool_ends(void) {
    dispatch_t *dpp = make_server();
    thread_pool_attr_t attr = usual_pool(dpp);
    thread_pool_t *pool = pool_of_detached(&attr);
    check(thread_pool_start(pool) == EOK);
    until_workers(2);
    end_channel();
    until_workers(0);
    check(thread_pool_destroy(pool) == EOK);
    attr.context_alloc = no_context;
    atomic_store(&made, 0);
    atomic_store(&freed, 0);
    pool = pool_of_detached(&attr);
    check(thread_pool_start(pool) == EOK);
    until_workers(2); /* which have ended without a context to free */
    check(thread_pool_destroy(pool) == EOK && dispatch_destroy(dpp) == 0);
}

void pool_errors(void) {
    dispatch_t *dpp = make_server();
    thread_pool_attr_t right = usual_pool(dpp), wrong[8];
    for (int at = 0; at < 8; at++) wrong[at] = right;
    wrong[0].block_func = NULL;
    wrong[1].handler_func = NULL;
    wrong[2].context_alloc = NULL;
    wrong[3].lo_water = 4;
    wrong[4].hi_water = 6;
    wrong[5].lo_water = wrong[5].hi_water = 0;
    for (int at = 0; at < 6; at++) check(!thread_pool_create(&wrong[at], 0) && errno == EINVAL);
    check(!thread_pool_create(NULL, 0) && errno == EINVAL && !thread_pool_create(&right, 4) && errno == EINVAL);
    check(!thread_pool_create(&right, POOL_FLAG_USE_SELF | POOL_FLAG_EXIT_SELF) && errno == EINVAL);
    fails(thread_pool_start(NULL), EINVAL);
    fails(thread_pool_destroy(NULL), EINVAL);
    wrong[6].unblock_func = NULL;
    wrong[6].increment = 0; /* which means 1 */
    thread_pool_t *pool = thread_pool_create(&wrong[6], 0);
    check(pool && thread_pool_destroy(pool) == EOK); /* it has not started */
    pool = thread_pool_create(&wrong[6], 0);
    check(thread_pool_start(pool) == EOK);
    until_workers(2);
    fails(thread_pool_destroy(pool), EINVAL);
    end_channel();
    until_workers(0);
    while (thread_pool_destroy(pool) != EOK) usleep(500);
    check(dispatch_destroy(dpp) == 0);
}
