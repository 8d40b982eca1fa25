/* Files of the host that a dispatch handle waits for. Tested, not proved.
 *
 * The front's own thread watches a file until something holds for it, and then sends a pulse to the handle's
 * channel. The file is watched again after its function has returned. */
enum { SELECT_EVENTS = SELECT_FLAG_READ | SELECT_FLAG_WRITE | SELECT_FLAG_EXCEPT };
enum { FILE_TURNS = INT32_MAX / FILES };
enum { SELECT_FLAGS = SELECT_EVENTS | SELECT_FLAG_REARM | SELECT_FLAG_SRVEXCEPT };

typedef int (*select_function)(select_context_t *ctp, int fd, unsigned flags, void *handle);

struct file {
    dispatch_t *dpp; /* null: the place is free */
    int fd;
    unsigned flags, ready; /* ready: what holds for it since its function was called */
    int turn;              /* counts what was attached in this place, up to FILE_TURNS */
    select_function function;
    void *handle;
};

static struct file files[FILES];

/* Returns the place of an attached file, or -1. The caller has the lock. */
static int place_of_file(int fd) {
    for (int at = 0; at < FILES; at++) {
        if (files[at].dpp && files[at].fd == fd) return at;
    }
    return -1;
}

static int free_file(void) {
    for (int at = 0; at < FILES; at++) {
        if (!files[at].dpp) return at;
    }
    return -1;
}

/* Watches a file until something holds for it, once. Returns 0 or an errno. The caller has the lock. */
static int watch_file(int at, int operation) {
    unsigned flags = files[at].flags;
    struct epoll_event event = {.events = EPOLLONESHOT, .data.u32 = (uint32_t)(WAIT_FILE + at)};
    if (flags & SELECT_FLAG_READ) event.events |= EPOLLIN;
    if (flags & SELECT_FLAG_WRITE) event.events |= EPOLLOUT;
    if (flags & SELECT_FLAG_EXCEPT) event.events |= EPOLLPRI;
    return epoll_ctl(watched, operation, files[at].fd, &event) ? errno : 0;
}

/* Attaches the handle to its own channel, for the pulses about files. Returns 0 or an errno. */
static int connect_files(dispatch_t *dpp) {
    ordered_mutex_lock(&dpp->lock);
    int chid = channel_of(dpp, _NTO_CHF_UNBLOCK | _NTO_CHF_DISCONNECT);
    if (chid != -1 && dpp->coid == -1) dpp->coid = ConnectAttach(ND_LOCAL_NODE, 0, chid, SIDE, 0);
    int error = chid == -1 || dpp->coid == -1 ? errno : 0;
    neutrino_pthread_mutex_unlock(&dpp->lock);
    return error;
}

/* Enters a file in the table. Returns 0 or an errno. The caller has the lock. */
static int enter_file(const struct file *new) {
    int at = place_of_file(new->fd), operation = at == -1 ? EPOLL_CTL_ADD : EPOLL_CTL_MOD;
    if (at != -1 && files[at].dpp != new->dpp) return EBUSY;
    if (at == -1) at = free_file();
    if (at == -1 || watched == -1) return EAGAIN;
    struct file old = files[at];
    files[at] = *new;
    files[at].turn = (old.turn + 1) % FILE_TURNS;
    int error = watch_file(at, operation);
    if (error == ENOENT) error = watch_file(at, EPOLL_CTL_ADD); /* the file was closed, and opened again */
    if (error) files[at] = old;
    return error == ENOMEM || error == ENOSPC ? EAGAIN : error;
}

int select_attach(void *dpp, select_attr_t *attr, int fd, unsigned flags, select_function func, void *handle) {
    struct file new = {.dpp = dpp, .fd = fd, .flags = flags, .function = func, .handle = handle};
    (void)attr;
    if (!dpp || !func || !(flags & SELECT_EVENTS) || flags & ~(unsigned)SELECT_FLAGS) return fail(EINVAL);
    int error = connect_files(dpp);
    if (error) return fail(error);
    hold();
    error = enter_file(&new);
    release();
    return error ? fail(error) : 0;
}

/* Frees the place of a file. The caller has the lock. */
static void leave_file(int at) {
    epoll_ctl(watched, EPOLL_CTL_DEL, files[at].fd, NULL); /* it fails if the file is closed */
    files[at].dpp = NULL;
}

int select_detach(void *dpp, int fd) {
    hold();
    int at = place_of_file(fd);
    bool is_attached = at != -1 && dpp && files[at].dpp == dpp;
    if (is_attached) leave_file(at);
    release();
    return is_attached ? 0 : fail(EINVAL);
}

static void detach_files(dispatch_t *dpp) {
    hold();
    for (int at = 0; at < FILES; at++) {
        if (files[at].dpp == dpp) leave_file(at);
    }
    release();
}

/* Returns which of a file's flags hold. A file that was closed at its other end can be read and written. */
static unsigned flags_that_hold(uint32_t events, unsigned flags) {
    unsigned hold_now = 0;
    if (events & (EPOLLIN | EPOLLHUP | EPOLLERR)) hold_now |= SELECT_FLAG_READ;
    if (events & (EPOLLOUT | EPOLLHUP | EPOLLERR)) hold_now |= SELECT_FLAG_WRITE;
    if (events & EPOLLPRI) hold_now |= SELECT_FLAG_EXCEPT;
    return hold_now & flags;
}

/* Sends the pulse about a file. If the channel has no room for it, the file is watched again after a moment. The
 * front's own thread calls this. */
static void tell_file(int at, uint32_t events) {
    hold();
    dispatch_t *dpp = files[at].dpp;
    int coid = dpp ? dpp->coid : -1, named = files[at].turn * FILES + at;
    if (dpp) files[at].ready |= flags_that_hold(events, files[at].flags);
    release();
    if (!dpp || !send_pulse(coid, USUAL, FILE_READY, (union sigval){.sival_int = named}) || errno != EAGAIN) return;
    neutrino_usleep(1000);
    hold();
    if (files[at].dpp == dpp) watch_file(at, EPOLL_CTL_MOD);
    release();
}

/* Takes a file whose pulse has come. Returns false if it was detached, or attached anew. */
static bool take_file(const dispatch_t *dpp, int named, struct file *taken) {
    struct file *f = &files[named % FILES];
    hold();
    *taken = *f;
    bool is_same = f->dpp == dpp && f->turn == named / FILES && f->ready;
    if (is_same) f->ready = 0;
    release();
    return is_same;
}

static void handle_file(dispatch_context_t *ctp, int named) {
    struct file taken;
    select_context_t *s = &ctp->select_context;
    if (named < 0 || !take_file(s->dpp, named, &taken)) return;
    taken.function(s, taken.fd, taken.ready, taken.handle);
    hold();
    const struct file *now = &files[named % FILES];
    bool is_same = now->dpp && now->turn == taken.turn;
    if (is_same && taken.flags & SELECT_FLAG_REARM) watch_file(named % FILES, EPOLL_CTL_MOD);
    release();
}

/* Forgets the files in a forked child. */
static void forget_files(void) { memset(files, 0, sizeof files); }
