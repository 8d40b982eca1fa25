/* Dispatch: handles, contexts, and the functions that are attached to messages and pulses. Tested, not proved.
 *
 * The lock of a handle protects what is attached. The lock of a context lets dispatch_unblock end exactly the
 * receive of that context: while it has the lock, the thread can't go on to another call. */
enum { LEAST_ROOM = 2048, HIGHEST_TYPE = UINT16_MAX, FILE_READY = -64, RETRY = 200 }; /* RETRY: microseconds */
enum attached { MESSAGES, OTHERS, PULSES }; /* OTHERS: messages that no range has */

typedef int (*handling_function)(message_context_t *ctp, int code, unsigned flags, void *handle);

struct attached_function {
    enum attached kind;
    int low, high;
    unsigned flags;
    handling_function function;
    void *handle;
};

struct _dispatch {
    pthread_mutex_t lock;
    int chid; /* -1: it has no channel yet */
    int coid; /* of the pulses about files, or -1 */
    bool owns_channel, has_limit, has_name;
    bool is_used; /* something is or was attached */
    uint64_t limit;
    size_t room;    /* the bytes of the longest message */
    unsigned parts; /* the most parts of a context */
    size_t count;
    struct attached_function *functions;
};

/* A context. The part for the program is the last, since its parts follow it. */
struct context {
    pthread_mutex_t lock;
    int tid;        /* the thread that receives now, or 0 */
    bool unblocks;  /* a dispatch_unblock wasn't noticed yet */
    bool has_event; /* it has received something that dispatch_handler hasn't handled yet */
    dispatch_context_t public;
};

static void detach_files(dispatch_t *dpp);
static void handle_file(dispatch_context_t *ctp, int number);

static void *null_with(int error) {
    errno = error;
    return NULL;
}

/* LeakSanitizer has this function, and other programs don't. */
void __lsan_ignore_object(const void *memory) __attribute__((weak));

/* Allocates cleared memory that a program may keep until it ends, as servers under QNX do: this is no leak. */
static void *allocate(size_t size) {
    void *memory = calloc(1, size);
    if (memory && __lsan_ignore_object) __lsan_ignore_object(memory);
    return memory;
}

dispatch_t *dispatch_create_channel(int chid, unsigned flags) {
    if (flags & ~DISPATCH_FLAG_NOLOCK || (chid < 1 && chid != -1)) return null_with(EINVAL);
    dispatch_t *dpp = allocate(sizeof *dpp);
    if (!dpp) return NULL;
    *dpp = (dispatch_t){.lock = PTHREAD_MUTEX_INITIALIZER, .chid = chid, .coid = -1, .room = LEAST_ROOM, .parts = 1};
    return dpp;
}

dispatch_t *dispatch_create(void) { return dispatch_create_channel(-1, 0); }

int dispatch_destroy(dispatch_t *dpp) {
    if (!dpp) return fail(EINVAL);
    detach_files(dpp);
    if (dpp->owns_channel) ChannelDestroy(dpp->chid);
    if (dpp->coid != -1) ConnectDetach(dpp->coid);
    pthread_mutex_destroy(&dpp->lock);
    free(dpp->functions);
    free(dpp);
    return 0;
}

/* Returns the handle's channel for what is to be attached. If there is none, creates it with these flags. The
 * caller has the handle's lock. */
static int channel_of(dispatch_t *dpp, unsigned flags) {
    if (dpp->chid == -1) {
        dpp->chid = ChannelCreate(flags);
        dpp->owns_channel = dpp->chid != -1;
    }
    dpp->is_used |= dpp->chid != -1;
    return dpp->chid;
}

int dispatch_timeout(dispatch_t *dpp, struct timespec *reltime) {
    bool is_wrong = reltime && (reltime->tv_sec < 0 || reltime->tv_nsec < 0 || reltime->tv_nsec >= 1000000000);
    if (!dpp || is_wrong) return fail(EINVAL);
    ordered_mutex_lock(&dpp->lock);
    dpp->has_limit = reltime;
    dpp->limit = reltime ? timespec2nsec(reltime) : 0;
    neutrino_pthread_mutex_unlock(&dpp->lock);
    return 0;
}

/* ---- what is attached */

/* Returns the place of the first function of a kind for a code from low to high, or -1. The function for other
 * messages is for each code. The caller has the lock. */
static int place_of_codes(const dispatch_t *dpp, enum attached kind, int low, int high) {
    for (size_t at = 0; at < dpp->count; at++) {
        const struct attached_function *f = &dpp->functions[at];
        if (f->kind == kind && (kind == OTHERS || (low <= f->high && high >= f->low))) return (int)at;
    }
    return -1;
}

static int place_of_code(const dispatch_t *dpp, enum attached kind, int code) {
    return place_of_codes(dpp, kind, code, code);
}

/* Attaches a function, and makes sure that there is a channel. Returns 0 or an errno. The caller has the lock. */
static int add_function(dispatch_t *dpp, const struct attached_function *new) {
    if (place_of_codes(dpp, new->kind, new->low, new->high) != -1) return EINVAL;
    if (channel_of(dpp, _NTO_CHF_UNBLOCK | _NTO_CHF_DISCONNECT) == -1) return errno;
    struct attached_function *grown = realloc(dpp->functions, (dpp->count + 1) * sizeof *grown);
    if (!grown) return ENOMEM;
    dpp->functions = grown;
    grown[dpp->count++] = *new;
    return 0;
}

/* Detaches the function at a place. The caller has the lock. */
static void remove_function(dispatch_t *dpp, int place) {
    struct attached_function *gone = &dpp->functions[place];
    dpp->count--;
    memmove(gone, gone + 1, (dpp->count - (size_t)place) * sizeof *gone);
}

int message_attach(dispatch_t *dpp, message_attr_t *attr, int low, int high, handling_function func, void *handle) {
    unsigned flags = attr ? attr->flags : 0;
    bool is_range = !(flags & MSG_FLAG_DEFAULT_FUNC);
    struct attached_function new = {is_range ? MESSAGES : OTHERS, low, high, flags, func, handle};
    if (!dpp || !func || flags & ~(MSG_FLAG_CROSS_ENDIAN | MSG_FLAG_DEFAULT_FUNC)) return fail(EINVAL);
    if (is_range && (low < 0 || high < low || high > HIGHEST_TYPE)) return fail(EINVAL);
    ordered_mutex_lock(&dpp->lock);
    int error = add_function(dpp, &new);
    if (!error && attr && attr->msg_max_size > dpp->room) dpp->room = attr->msg_max_size;
    if (!error && attr && attr->nparts_max > dpp->parts) dpp->parts = attr->nparts_max;
    neutrino_pthread_mutex_unlock(&dpp->lock);
    return error ? fail(error) : 0;
}

/* Returns the place of the function that was attached to exactly these messages, or -1. The caller has the
 * lock. */
static int place_of_range(const dispatch_t *dpp, int low, int high) {
    for (size_t at = 0; at < dpp->count; at++) {
        const struct attached_function *f = &dpp->functions[at];
        if (f->kind != PULSES && f->low == low && f->high == high) return (int)at;
    }
    return -1;
}

int message_detach(dispatch_t *dpp, int low, int high, unsigned flags) {
    (void)flags;
    if (!dpp) return fail(EINVAL);
    ordered_mutex_lock(&dpp->lock);
    int place = place_of_range(dpp, low, high);
    if (place != -1) remove_function(dpp, place);
    neutrino_pthread_mutex_unlock(&dpp->lock);
    return place == -1 ? fail(EINVAL) : 0;
}

int message_connect(dispatch_t *dpp, int flags) {
    if (!dpp || (unsigned)flags & ~MSG_FLAG_SIDE_CHANNEL) return fail(EINVAL);
    ordered_mutex_lock(&dpp->lock);
    int chid = dpp->chid;
    neutrino_pthread_mutex_unlock(&dpp->lock);
    if (chid == -1) return fail(EINVAL);
    return ConnectAttach(ND_LOCAL_NODE, 0, chid, flags ? SIDE : 0, 0);
}

/* Returns the first code of the program's range that isn't attached, or -1. The caller has the lock. */
static int free_code(const dispatch_t *dpp) {
    int code = _PULSE_CODE_MINAVAIL;
    while (code <= _PULSE_CODE_MAXAVAIL && place_of_code(dpp, PULSES, code) != -1) code++;
    return code <= _PULSE_CODE_MAXAVAIL ? code : -1;
}

int pulse_attach(dispatch_t *dpp, int flags, int code, handling_function func, void *handle) {
    bool chooses = (unsigned)flags & MSG_FLAG_ALLOC_PULSE;
    if (!dpp || !func || (unsigned)flags & ~MSG_FLAG_ALLOC_PULSE) return fail(EINVAL);
    if (!chooses && (code < _PULSE_CODE_RESTART || code > _PULSE_CODE_MAXAVAIL)) return fail(EINVAL);
    ordered_mutex_lock(&dpp->lock);
    if (chooses) code = free_code(dpp);
    struct attached_function new = {PULSES, code, code, 0, func, handle};
    int error = chooses && code == -1 ? EAGAIN : add_function(dpp, &new);
    neutrino_pthread_mutex_unlock(&dpp->lock);
    return error ? fail(error) : code == -1 ? 0 : code;
}

int pulse_detach(dispatch_t *dpp, int code, int flags) {
    (void)flags;
    if (!dpp) return fail(EINVAL);
    ordered_mutex_lock(&dpp->lock);
    int place = place_of_code(dpp, PULSES, code);
    if (place != -1) remove_function(dpp, place);
    neutrino_pthread_mutex_unlock(&dpp->lock);
    return place == -1 ? fail(EINVAL) : 0;
}

/* ---- contexts */

static struct context *context_of(dispatch_context_t *ctp) {
    return ctp ? (struct context *)((char *)ctp - offsetof(struct context, public)) : NULL;
}

dispatch_context_t *dispatch_context_alloc(dispatch_t *dpp) {
    if (!dpp) return null_with(EINVAL);
    ordered_mutex_lock(&dpp->lock);
    size_t room = dpp->room, parts = dpp->parts;
    bool is_used = dpp->is_used;
    neutrino_pthread_mutex_unlock(&dpp->lock);
    if (!is_used) return null_with(EINVAL);
    struct context *c = allocate(sizeof *c + parts * sizeof(iov_t));
    void *bytes = calloc(1, room);
    if (!c || !bytes) {
        free(c);
        free(bytes);
        return null_with(ENOMEM);
    }
    pthread_mutex_init(&c->lock, NULL);
    message_context_t *m = &c->public.message_context;
    m->msg = bytes;
    m->dpp = dpp;
    m->msg_max_size = room;
    return &c->public;
}

void dispatch_context_free(dispatch_context_t *ctp) {
    struct context *c = context_of(ctp);
    if (!c) return;
    pthread_mutex_destroy(&c->lock);
    free(ctp->message_context.msg);
    free(c);
}

/* Notes that the calling thread receives in this context, unless the context is to be unblocked. */
static bool begin_block(struct context *c) {
    ordered_mutex_lock(&c->lock);
    bool may = !c->unblocks;
    c->unblocks = false;
    c->tid = may ? seat : 0;
    neutrino_pthread_mutex_unlock(&c->lock);
    return may;
}

static void end_block(struct context *c, bool is_interrupted) {
    ordered_mutex_lock(&c->lock);
    c->tid = 0;
    if (is_interrupted) c->unblocks = false;
    neutrino_pthread_mutex_unlock(&c->lock);
}

static void end_block_of_cancelled(void *c) { end_block(c, true); }

/* Gives a context the room for the handle's longest message, which may have grown. Returns 0 or an errno. */
static int make_room(message_context_t *m) {
    ordered_mutex_lock(&m->dpp->lock);
    size_t room = m->dpp->room;
    neutrino_pthread_mutex_unlock(&m->dpp->lock);
    if (room <= m->msg_max_size) return 0;
    void *longer = realloc(m->msg, room);
    if (!longer) return ENOMEM;
    m->msg = longer;
    m->msg_max_size = room;
    return 0;
}

/* Returns the handle's channel, and sets the handle's timeout for the next receive. */
static int limit_receive(dispatch_t *dpp) {
    ordered_mutex_lock(&dpp->lock);
    int chid = dpp->chid;
    bool has_limit = dpp->has_limit;
    uint64_t limit = dpp->limit;
    neutrino_pthread_mutex_unlock(&dpp->lock);
    if (has_limit) TimerTimeout(CLOCK_MONOTONIC, _NTO_TIMEOUT_RECEIVE, NULL, &limit, NULL);
    return chid;
}

/* Receives in a context. Returns the rcvid, or -1 and sets errno. */
static int block_in(struct context *c, int chid) {
    message_context_t *m = &c->public.message_context;
    int rcvid = -1;
    pthread_cleanup_push(end_block_of_cancelled, c);
    rcvid = MsgReceive(chid, m->msg, m->msg_max_size, &m->info);
    pthread_cleanup_pop(0);
    int error = errno;
    end_block(c, rcvid == -1 && error == EINTR);
    errno = error;
    return rcvid;
}

dispatch_context_t *dispatch_block(dispatch_context_t *ctp) {
    struct context *c = context_of(ctp);
    if (!c) return null_with(EINVAL);
    message_context_t *m = &ctp->message_context;
    c->has_event = false;
    if (enter()) return NULL;
    int error = make_room(m);
    if (error) return null_with(error);
    if (!begin_block(c)) return null_with(EINTR);
    m->tid = (unsigned)seat;
    m->rcvid = block_in(c, limit_receive(m->dpp));
    if (m->rcvid == -1) return NULL;
    m->size = m->rcvid ? (size_t)m->info.msglen : sizeof(struct _pulse);
    c->has_event = true;
    return ctp;
}

void dispatch_unblock(dispatch_context_t *ctp) {
    struct context *c = context_of(ctp);
    if (!c || enter()) return;
    ordered_mutex_lock(&c->lock);
    c->unblocks = true;
    while (c->unblocks && c->tid) {
        neutrino_unblock(c->tid);
        neutrino_pthread_mutex_unlock(&c->lock);
        neutrino_usleep(RETRY); /* the thread may not have begun its receive yet */
        ordered_mutex_lock(&c->lock);
    }
    neutrino_pthread_mutex_unlock(&c->lock);
}

/* ---- handling */

/* Copies the function for a pulse or a message of this code. Returns whether there is one. */
static bool find_function(dispatch_t *dpp, enum attached kind, int code, struct attached_function *found) {
    ordered_mutex_lock(&dpp->lock);
    int place = place_of_code(dpp, kind, code);
    if (place == -1 && kind == MESSAGES) place = place_of_code(dpp, OTHERS, code);
    if (place != -1) *found = dpp->functions[place];
    neutrino_pthread_mutex_unlock(&dpp->lock);
    return place != -1;
}

/* Replies to a message that no function has. */
static void answer_unknown(const message_context_t *m, int type) {
    ordered_mutex_lock(&m->dpp->lock);
    bool is_open = type == _IO_CONNECT && m->dpp->has_name;
    neutrino_pthread_mutex_unlock(&m->dpp->lock);
    if (is_open) MsgReply(m->rcvid, EOK, NULL, 0);
    else MsgError(m->rcvid, ENOSYS);
}

int dispatch_handler(dispatch_context_t *ctp) {
    struct context *c = context_of(ctp);
    struct attached_function f;
    if (!c || !c->has_event) return fail(EINVAL);
    message_context_t *m = &ctp->message_context;
    c->has_event = false;
    enum attached kind = m->rcvid ? MESSAGES : PULSES;
    int code = kind == PULSES ? m->msg->pulse.code : m->size >= sizeof m->msg->type ? m->msg->type : 0;
    if (kind == PULSES && code == FILE_READY) handle_file(ctp, m->msg->pulse.value.sival_int);
    else if (find_function(m->dpp, kind, code, &f)) f.function(m, code, f.flags, f.handle);
    else if (kind == MESSAGES) answer_unknown(m, code);
    return 0;
}
