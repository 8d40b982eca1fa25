/* Pools of threads that block and handle in turn. Tested, not proved.
 *
 * The pool's lock protects its numbers and its workers. While it is held, a worker that is blocked keeps its
 * context, so that the context can be unblocked. */
enum { POOL_FLAGS = POOL_FLAG_EXIT_SELF | POOL_FLAG_USE_SELF, ASK_AGAIN = 10000000 }; /* nanoseconds */
enum {
    CONTROL_FLAGS = THREAD_POOL_CONTROL_NONBLOCK | THREAD_POOL_CONTROL_LOWATER | THREAD_POOL_CONTROL_INCREMENT |
                    THREAD_POOL_CONTROL_HIWATER | THREAD_POOL_CONTROL_MAXIMUM
};

struct worker {
    thread_pool_t *pool;
    pthread_t thread;
    void *context;
    bool is_self;    /* the thread that started the pool */
    bool is_ready;   /* it is blocked, or on its way to block */
    bool is_blocked; /* it is ready, and its context can be unblocked */
    bool leaves;     /* it ends, because the pool has too many workers */
    struct worker *next;
};

struct _thread_pool {
    pthread_mutex_t lock;
    pthread_cond_t changed; /* a worker has begun or ended */
    thread_pool_attr_t attr;
    pthread_attr_t threads; /* a copy of the threads' attributes, if attr names them */
    unsigned flags;
    int created, ready, leaving; /* the numbers of all workers, and of those that are ready or leave */
    bool has_started, ends;
    struct worker *workers;
};

static bool are_limits(const thread_pool_attr_t *attr) {
    return attr->lo_water <= attr->hi_water && attr->hi_water <= attr->maximum && attr->hi_water;
}

thread_pool_t *thread_pool_create(thread_pool_attr_t *attr, unsigned flags) {
    bool is_whole = attr && attr->block_func && attr->handler_func && attr->context_alloc && are_limits(attr);
    if (!is_whole || flags >= POOL_FLAGS) return null_with(EINVAL);
    thread_pool_t *pool = allocate(sizeof *pool);
    if (!pool) return NULL;
    pthread_mutex_init(&pool->lock, NULL);
    pthread_cond_init(&pool->changed, NULL);
    pool->attr = *attr;
    if (!pool->attr.increment) pool->attr.increment = 1;
    if (attr->attr) {
        pool->threads = *attr->attr;
        pool->attr.attr = &pool->threads;
    }
    pool->flags = flags;
    return pool;
}

/* ---- workers */

static void *work(void *own);

/* Notes whether a worker is ready, or no longer. The caller has the lock. */
static void set_ready(struct worker *w, bool is_ready) {
    w->pool->ready += is_ready - w->is_ready;
    w->is_ready = is_ready;
    w->is_blocked = false;
}

/* Adds a worker without a thread. Returns null if there is no memory. The caller has the lock. */
static struct worker *add_worker(thread_pool_t *pool) {
    struct worker *w = calloc(1, sizeof *w);
    if (!w) return NULL;
    w->pool = pool;
    w->next = pool->workers;
    pool->workers = w;
    pool->created++;
    set_ready(w, true);
    return w;
}

/* Removes a worker. The caller has the lock. */
static void remove_worker(struct worker *w) {
    thread_pool_t *pool = w->pool;
    struct worker **at = &pool->workers;
    while (*at != w) at = &(*at)->next;
    *at = w->next;
    set_ready(w, false);
    pool->leaving -= w->leaves;
    pool->created--;
    neutrino_pthread_cond_broadcast(&pool->changed);
    free(w);
}

/* Creates a worker with a thread. Returns 0 or an error. The caller has the lock. */
static int create_worker(thread_pool_t *pool) {
    struct worker *w = add_worker(pool);
    int state = PTHREAD_CREATE_JOINABLE;
    if (!w) return ENOMEM;
    int error = neutrino_pthread_create(&w->thread, pool->attr.attr, work, w);
    if (error) {
        remove_worker(w);
        return error;
    }
    if (pool->attr.attr) pthread_attr_getdetachstate(pool->attr.attr, &state);
    if (state == PTHREAD_CREATE_JOINABLE) pthread_detach(w->thread);
    return 0;
}

/* Returns whether a pool may have one more worker that is ready. The caller has the lock. */
static bool has_room_for_worker(const thread_pool_t *pool) {
    return !pool->ends && pool->ready < pool->attr.hi_water && pool->created < pool->attr.maximum;
}

/* Creates workers while fewer than lo_water are ready, increment at a time. The caller has the lock. */
static void fill_pool(thread_pool_t *pool) {
    while (pool->ready < pool->attr.lo_water && has_room_for_worker(pool)) {
        for (int more = pool->attr.increment; more && has_room_for_worker(pool); more--) {
            if (create_worker(pool)) return;
        }
    }
}

/* A worker goes to block. Returns false if it has to end: the pool ends, or has too many workers. */
static bool begin_wait(struct worker *w) {
    thread_pool_t *pool = w->pool;
    ordered_mutex_lock(&pool->lock);
    int others = pool->ready - w->is_ready, all = pool->created - pool->leaving;
    bool is_surplus = !w->is_self && (others >= pool->attr.hi_water || all > pool->attr.maximum);
    bool goes_on = !pool->ends && !is_surplus;
    set_ready(w, goes_on);
    w->is_blocked = goes_on;
    w->leaves = is_surplus;
    pool->leaving += is_surplus;
    if (goes_on) neutrino_pthread_cond_broadcast(&pool->changed);
    neutrino_pthread_mutex_unlock(&pool->lock);
    return goes_on;
}

/* A worker has something to handle in a context, or was unblocked. */
static void end_wait(struct worker *w, void *context) {
    thread_pool_t *pool = w->pool;
    ordered_mutex_lock(&pool->lock);
    set_ready(w, false);
    if (context) {
        w->context = context;
        fill_pool(pool);
    }
    neutrino_pthread_mutex_unlock(&pool->lock);
}

/* Blocks and handles in turn, until the worker has to end. */
static void work_in_turn(struct worker *w) {
    const thread_pool_attr_t *attr = &w->pool->attr; /* the functions never change */
    while (begin_wait(w)) {
        errno = 0;
        void *context = attr->block_func(w->context);
        int error = errno;
        end_wait(w, context);
        if (context) attr->handler_func(context);
        else if (error != EINTR && error != ETIMEDOUT) return;
    }
}

/* Ends a worker, also if its thread is cancelled. */
static void end_work(void *own) {
    struct worker *w = own;
    thread_pool_t *pool = w->pool;
    void (*context_free)(void *) = pool->attr.context_free;
    ordered_mutex_lock(&pool->lock);
    set_ready(w, false);
    neutrino_pthread_mutex_unlock(&pool->lock);
    if (context_free && w->context) context_free(w->context);
    ordered_mutex_lock(&pool->lock);
    remove_worker(w);
    neutrino_pthread_mutex_unlock(&pool->lock);
}

static void *work(void *own) {
    struct worker *w = own;
    thread_pool_t *pool = w->pool;
    pthread_cleanup_push(end_work, w);
    w->context = pool->attr.context_alloc(pool->attr.handle);
    if (w->context) work_in_turn(w);
    pthread_cleanup_pop(1);
    return NULL;
}

/* ---- the pool */

/* Starts the workers, and adds the calling thread if it is one of them. Returns 0 or an error. The caller has
 * the lock. */
static int start_workers(thread_pool_t *pool, struct worker **self) {
    int error = 0, count = pool->attr.lo_water ? pool->attr.lo_water : 1;
    if (pool->flags & POOL_FLAG_USE_SELF) {
        *self = add_worker(pool);
        if (!*self) return ENOMEM;
        (*self)->is_self = true;
        (*self)->thread = pthread_self();
    }
    while (pool->created < count && !error) error = create_worker(pool);
    pool->has_started = pool->created;
    return pool->created ? 0 : error;
}

int thread_pool_start(void *own) {
    thread_pool_t *pool = own;
    struct worker *self = NULL;
    if (!pool) return fail(EINVAL);
    ordered_mutex_lock(&pool->lock);
    unsigned flags = pool->flags;
    int error = pool->has_started ? EINVAL : start_workers(pool, &self);
    neutrino_pthread_mutex_unlock(&pool->lock);
    if (error) return fail(error);
    if (self) work(self);
    if (flags & POOL_FLAG_EXIT_SELF) pthread_exit(NULL);
    return EOK;
}

/* Unblocks at most this number of workers. The caller has the lock. */
static void unblock_workers(thread_pool_t *pool, int count) {
    for (struct worker *w = pool->workers; w && count > 0; w = w->next) {
        if (!w->is_blocked) continue;
        pool->attr.unblock_func(w->context);
        count--;
    }
}

/* Waits for a change of the workers, for a short time. The caller has the lock. */
static void wait_for_change(thread_pool_t *pool) {
    struct timespec until = time_after(CLOCK_MONOTONIC, ASK_AGAIN);
    neutrino_pthread_cond_clockwait(&pool->changed, &pool->lock, CLOCK_MONOTONIC, &until);
}

static bool is_worker(const thread_pool_t *pool) {
    for (const struct worker *w = pool->workers; w; w = w->next) {
        if (pthread_equal(w->thread, pthread_self())) return true;
    }
    return false;
}

int thread_pool_destroy(thread_pool_t *pool) {
    if (!pool) return fail(EINVAL);
    ordered_mutex_lock(&pool->lock);
    int error = is_worker(pool) ? EDEADLK : pool->created && !pool->attr.unblock_func ? EINVAL : 0;
    pool->ends = !error;
    while (!error && pool->created) {
        unblock_workers(pool, pool->created);
        wait_for_change(pool);
    }
    neutrino_pthread_mutex_unlock(&pool->lock);
    if (error) return fail(error);
    pthread_mutex_destroy(&pool->lock);
    pthread_cond_destroy(&pool->changed);
    free(pool);
    return EOK;
}

/* Gives a pool new limits, and creates or ends workers. Returns whether they are limits. The caller has the
 * lock. */
static bool set_limits(thread_pool_t *pool, const thread_pool_attr_t *new) {
    if (!are_limits(new)) return false;
    pool->attr.lo_water = new->lo_water;
    pool->attr.hi_water = new->hi_water;
    pool->attr.maximum = new->maximum;
    pool->attr.increment = new->increment ? new->increment : 1;
    if (pool->has_started) fill_pool(pool);
    return true;
}

/* Unblocks the workers that are too many. The caller has the lock. */
static void end_surplus(thread_pool_t *pool) {
    int waits = pool->ready - pool->attr.hi_water, all = pool->created - pool->leaving - pool->attr.maximum;
    if (pool->attr.unblock_func) unblock_workers(pool, waits > all ? waits : all);
}

/* Gives a pool new limits, and waits until it has lower to upper workers if waits and it has started. */
static int control(thread_pool_t *pool, const thread_pool_attr_t *new, int lower, int upper, bool waits) {
    ordered_mutex_lock(&pool->lock);
    bool is_set = set_limits(pool, new);
    if (is_set) end_surplus(pool);
    waits &= is_set && pool->has_started;
    while (waits && (pool->created < lower || pool->created > upper)) {
        wait_for_change(pool);
        end_surplus(pool);
    }
    neutrino_pthread_mutex_unlock(&pool->lock);
    return is_set ? EOK : fail(EINVAL);
}

int thread_pool_limits(thread_pool_t *pool, int lowater, int hiwater, int maximum, int increment, unsigned flags) {
    if (!pool || flags & ~THREAD_POOL_CONTROL_NONBLOCK) return fail(EINVAL);
    ordered_mutex_lock(&pool->lock);
    thread_pool_attr_t new = pool->attr;
    neutrino_pthread_mutex_unlock(&pool->lock);
    if (lowater >= 0) new.lo_water = (unsigned short)lowater;
    if (hiwater >= 0) new.hi_water = (unsigned short)hiwater;
    if (maximum >= 0) new.maximum = (unsigned short)maximum;
    if (increment >= 0) new.increment = (unsigned short)increment;
    return control(pool, &new, 0, new.maximum, !(flags & THREAD_POOL_CONTROL_NONBLOCK));
}

int thread_pool_control(thread_pool_t *pool, thread_pool_attr_t *attr, uint16_t lower, uint16_t upper, unsigned flags) {
    bool waits = !(flags & THREAD_POOL_CONTROL_NONBLOCK);
    if (!pool || !attr || flags & ~(unsigned)CONTROL_FLAGS || (waits && lower > upper)) return fail(EINVAL);
    ordered_mutex_lock(&pool->lock);
    thread_pool_attr_t new = pool->attr;
    neutrino_pthread_mutex_unlock(&pool->lock);
    if (flags & THREAD_POOL_CONTROL_LOWATER) new.lo_water = attr->lo_water;
    if (flags & THREAD_POOL_CONTROL_INCREMENT) new.increment = attr->increment;
    if (flags & THREAD_POOL_CONTROL_HIWATER) new.hi_water = attr->hi_water;
    if (flags & THREAD_POOL_CONTROL_MAXIMUM) new.maximum = attr->maximum;
    return control(pool, &new, lower, upper, waits);
}
