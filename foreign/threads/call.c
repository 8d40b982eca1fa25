/* Makes a call, and waits for its completion. Tested, not proved. */

/* Starts the timeout that the thread set for this call, if any. */
static void start_timeout(struct place *p, struct call *c) {
    c->states = p->states;
    p->states = 0;
    if (!c->states) return;
    uint64_t start = now();
    c->until = start + p->time < start ? UINT64_MAX : start + p->time;
}

/* The room of a call's event. Only ChannelDestroy and ConnectDetach complete more than one call
 * of another thread. The completions of other calls fit into the thread's own room, unless a
 * buffer is longer than half of it. */
static struct event event_of(neutrino *k, const struct place *p) {
    size_t at = (size_t)(p - k->places);
    bool ends_many = p->kind == BALSAEUCHRE_CHANNEL_DESTROY || p->kind == BALSAEUCHRE_CONNECT_DETACH;
    struct event e = {.rows = k->rows + OWN_ROWS * at, .bytes = k->near[at], .bytes_len = NEAR};
    if (ends_many || k->most > NEAR / 2) {
        e.bytes = k->event.bytes;
        e.bytes_len = k->event.bytes_len;
    }
    return e;
}

/* The data of a call that the scheduler gets. */
struct use {
    bool is_valid; /* its number names something */
    int chid, client;
};

/* Returns the data of a call as they are now. No other thread of the kernel runs meanwhile. */
static struct use use_of(const neutrino *k, const struct call *c) {
    struct use use = {.is_valid = !c->table || id_of(k, c->table, c->number, c->owner)};
    if (c->table == CHANNELS) use.chid = c->number;
    if (c->table == CONNECTIONS) use.chid = k->connections[place_in(&k->tables[CONNECTIONS], c->number)].peer;
    for (int at = 0; c->table == MESSAGES && use.is_valid && at < PLACES; at++) {
        if (k->places[at].rcvid != c->number) continue;
        use.client = k->places[at].tid;
        use.chid = k->places[at].chid;
    }
    return use;
}

/* Waits until the scheduler lets the thread make its call. It is out of line, so that other calls don't save registers
 * for it. */
__attribute__((noinline, cold)) static void await_turn(const neutrino *k, const struct call *c) {
    struct use use = use_of(k, c);
    k->scheduler->turn(c->request.kind, use.chid, use.client);
    use = use_of(k, c);
    k->scheduler->before(c->request.kind, use.is_valid, use.chid, use.client);
}

/* Makes the call, and waits for its completion. p->error and p->result have the result. */
static void make(neutrino *k, struct place *p, struct call *c) {
    uint64_t ended = 0, own = bit_of(k, p);
    if (k->scheduler) await_turn(k, c);
    start_timeout(p, c);
    if ((p->error = note_call(k, p, c))) return;
    take(k);
    struct event e = event_of(k, p);
    int error = make_under_lock(k, p, c, &e, &ended);
    uint64_t asleep = tell(k, ended & ~own);
    release(k);
    wake(k, asleep);
    if (error) p->error = error;
    if (error || ended & own) return;
    for (enum woken woken; (woken = sleep_until(p, c->until)) != HAS_ENDED;) c->until = end_early(k, p, woken);
}

static long call_long(struct call *c) {
    int cancel, ignored;
    struct place *p = self;
    if (refuse_call()) return -1;
    if ((!c->sent && c->sent_len) || (!c->room && c->room_len)) return fail(EFAULT);
    pthread_setcancelstate(PTHREAD_CANCEL_DISABLE, &cancel);
    inside++;
    c->cancels = p->interruptible && cancel == PTHREAD_CANCEL_ENABLE;
    make(kernel, p, c);
    int error = p->error;
    long result = p->result;
    if (kernel->scheduler) kernel->scheduler->after();
    inside--;
    pthread_setcancelstate(cancel, &ignored);
    return error ? fail(error) : result;
}
