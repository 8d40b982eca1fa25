/* Makes a call under the lock, up to the point at which it has to wait. Tested, not proved. */

/* Returns the sender's priority, for a pulse. If the kernel refuses this State, it also refuses the pulse. */
static uint8_t priority_of(neutrino *k, const struct place *p) {
    struct call c = {.request = {.kind = BALSAEUCHRE_STATE, .thread = p->tid, .target = p->tid}};
    uint32_t error = make_in_library(k, &c, 0, &k->event);
    return error || k->event.rows[0].mark != BALSAEUCHRE_THREAD_STATE ? 1 : k->event.rows[0].priority;
}

/* Returns a thread's state, and for which channel, message and server it waits. Under the lock. */
static struct neutrino_blocked look_at(const neutrino *k, const struct place *p) {
    if (!p->call) return (struct neutrino_blocked){STATE_READY, 0, 0, 0};
    if (p->state == STATE_RECEIVE) return (struct neutrino_blocked){STATE_RECEIVE, p->number, 0, 0};
    if (p->state == STATE_REPLY) return (struct neutrino_blocked){STATE_REPLY, p->chid, p->rcvid, p->server};
    int chid = k->connections[place_in(&k->tables[CONNECTIONS], p->number)].peer;
    return (struct neutrino_blocked){STATE_SEND, chid, 0, k->channels[place_in(&k->tables[CHANNELS], chid)].receiver};
}

/* Returns the number of bytes of a call's buffer that the kernel gets. */
static size_t visible_length(const struct call *c) {
    if (c->request.kind == BALSAEUCHRE_RECEIVE_PULSE) return 0;
    return c->request.kind == BALSAEUCHRE_RECEIVE && c->room_len > FRONT ? FRONT : c->room_len;
}

/* Makes an event's room for bytes at least this long. Memory is taken and given back without the lock.
 * Returns false if there is no memory. */
static bool grow(neutrino *k, struct event *e, size_t length) {
    uint8_t *old = malloc(length);
    if (!old) return false;
    lock(k);
    if (length > e->bytes_len) {
        uint8_t *longer = old;
        old = e->bytes;
        e->bytes = longer;
        e->bytes_len = length;
    }
    unlock(k);
    free(old);
    return true;
}

/* Makes room for the buffers of all open calls, one for each thread. This thread's buffer is longer than all
 * its buffers before. Returns false if there is no memory. */
static bool promise(neutrino *k, struct place *p, size_t length) {
    size_t more = length - p->longest;
    lock(k);
    size_t whole = k->promised + more;
    bool fits = whole >= more;
    if (fits) k->promised = whole;
    unlock(k);
    if (!fits) return false;
    bool grown = grow(k, &k->event, whole);
    lock(k);
    if (!grown) k->promised -= more;
    else if (length > k->most) k->most = length;
    unlock(k);
    if (grown) p->longest = length;
    return grown;
}

/* Makes room for the bytes of a call's completion, before the call is made. Returns 0 or ENOMEM. */
static int make_room(neutrino *k, struct place *p, const struct call *c) {
    size_t length = visible_length(c), rest = c->request.kind == BALSAEUCHRE_RECEIVE ? c->room_len - length : 0;
    if (length > p->longest && !promise(k, p, length)) return ENOMEM;
    if (rest <= p->rest) return 0;
    if (!grow(k, &k->side, rest)) return ENOMEM;
    p->rest = rest;
    return 0;
}

/* Makes room for a call, and notes it in its thread's place. It needs no lock, because no other thread looks
 * at the place before the call is open. Returns 0 or ENOMEM. */
static int note_call(neutrino *k, struct place *p, struct call *c) {
    if (make_room(k, p, c)) return ENOMEM;
    c->request.thread = p->tid;
    p->room = c->room;
    p->number = c->number;
    p->kind = c->request.kind;
    p->state = p->kind == BALSAEUCHRE_SEND ? STATE_SEND : STATE_RECEIVE;
    p->wants_info = c->info;
    open_word(p, false);
    return 0;
}

/* After an Unblock: if the thread's message is still held, its server has got a pulse, and the
 * thread waits for the reply. */
static void note_unblock(neutrino *k, int tid) {
    if (k->place_of[tid] == PLACES) return;
    struct place *p = &k->places[k->place_of[tid]];
    if (p->call && p->rcvid) p->asked = true;
}

/* Makes a noted call under the lock, and delivers the completions. Returns 0, and sets *ended to the threads
 * whose calls are completed. Or returns an errno, and completes no call. */
static int make_under_lock(neutrino *k, struct place *p, struct call *c, struct event *e, uint64_t *ended) {
    if (c->table) c->request.id = id_of(k, c->table, c->number, c->owner);
    if (p->kind == BALSAEUCHRE_PULSE && c->own_priority) c->request.priority = priority_of(k, p);
    if (c->cancels && p->cancelled) open_word(p, true);
    uint32_t error = make_in_library(k, c, visible_length(c), e);
    if (error) return host_error(error);
    p->call = c;
    *ended = deliver_rows(k, e);
    if (p->kind == BALSAEUCHRE_UNBLOCK && !p->error) note_unblock(k, c->request.target);
    return 0;
}
