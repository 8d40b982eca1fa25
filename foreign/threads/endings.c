/* Delivers completions from the kernel's rows to the threads that wait for them. Tested, not proved.
 *
 * All functions here run under the lock. A thread with an open call is in that call, so its struct call
 * and its buffers still exist.
 */
/* Shows a call to the hook, with a copy of its event's rows. */
RARE void show_call(neutrino *k, const struct call *c, size_t room_len, const struct event *e) {
    memcpy(k->seen.rows, e->rows, e->done.endings * sizeof *e->rows);
    k->seen.done = e->done;
    k->seen.bytes = e->bytes;
    k->seen.bytes_len = e->bytes_len;
    k->hooks.call(&c->request, c->sent, c->sent_len, c->room, room_len, &k->seen);
}

/* Makes a call in the library, with room_len bytes of its buffer. */
INLINED uint32_t make_in_library(neutrino *k, const struct call *c, size_t room_len, struct event *e) {
    uint8_t none[3] = {0}; /* pointers whose length is 0 point here */
    uint32_t error = balsaeuchre_make_call(&k->library, &c->request, c->sent_len ? c->sent : none, c->sent_len,
                                           room_len ? c->room : none + 1, room_len, e->rows, BALSAEUCHRE_ROWS,
                                           e->bytes_len ? e->bytes : none + 2, e->bytes_len, &e->done);
    if (!error && k->hooks.call) show_call(k, c, room_len, e);
    return error;
}

/* Copies the facts of a held message from the completion of an Info or of a receive. */
static void fill_info(const struct place *sender, const balsaeuchre_ending *row, struct _msg_info *info) {
    memset(info, 0, sizeof *info);
    info->nd = info->srcnd = ND_LOCAL_NODE;
    info->pid = row->process;
    info->tid = row->sender;
    info->chid = sender->chid;
    info->scoid = SCOID | row->process;
    info->coid = sender->number;
    info->msglen = (ssize_t)sender->msglen;
    info->srcmsglen = (ssize_t)row->srcmsglen;
    info->dstmsglen = (ssize_t)row->dstmsglen;
    info->priority = row->priority;
    info->flags = sender->asked ? _NTO_MI_UNBLOCK_REQ : 0;
}

/* Reads the rest of a message to the buffer after its front, by a call of the receiver. If there is no
 * memory, msglen has only the length of the front. */
static void read_on(neutrino *k, struct place *p, struct place *sender, const balsaeuchre_ending *row) {
    size_t length = (row->srcmsglen < p->call->room_len ? row->srcmsglen : p->call->room_len) - FRONT;
    uint8_t *behind = (uint8_t *)p->call->room + FRONT;
    struct call c = {.request = {.kind = BALSAEUCHRE_READ, .thread = p->tid, .id = row->rcvid, .offset = FRONT},
                     .room = behind};
    if (make_in_library(k, &c, length, &k->side)) return;
    const balsaeuchre_ending *read = &k->side.rows[0];
    if (read->mark != BALSAEUCHRE_COUNT) return;
    memcpy(behind, k->side.bytes + read->start, read->count);
    sender->msglen += read->count;
}

static void receive_message(neutrino *k, struct place *p, const balsaeuchre_ending *row) {
    struct place *sender = &k->places[k->place_of[row->sender]];
    struct name *channel = &k->channels[place_in(&k->tables[CHANNELS], p->number)];
    sender->rcvid = new_name(k, MESSAGES, row->rcvid, p->pid);
    sender->chid = p->number;
    sender->msglen = row->count;
    sender->state = STATE_REPLY;
    sender->asked = false;
    sender->server = p->tid;
    if (channel->receiver != p->tid) channel->receiver = p->tid;
    if (row->count == FRONT && p->call->room_len > FRONT && row->srcmsglen > FRONT) read_on(k, p, sender, row);
    if (p->wants_info) fill_info(sender, row, p->call->info);
    p->result = sender->rcvid;
}

static void receive_pulse(neutrino *k, struct place *p, const balsaeuchre_ending *row) {
    struct _pulse pulse;
    memset(&pulse, 0, sizeof pulse);
    pulse.type = _PULSE_TYPE;
    pulse.code = row->pulse_code;
    pulse.value.sival_int = row->value;
    if (row->what == BALSAEUCHRE_WHAT_UNBLOCK) {
        pulse.code = _PULSE_CODE_UNBLOCK;
        pulse.value.sival_int = number_of(k, MESSAGES, row->rcvid);
    } else if (row->what == BALSAEUCHRE_WHAT_DISCONNECT) {
        pulse.code = _PULSE_CODE_DISCONNECT;
        pulse.scoid = SCOID | row->process;
    } else if (k->hooks.pulse) {
        k->hooks.pulse(&pulse);
    }
    size_t length = p->call->room_len < sizeof pulse ? p->call->room_len : sizeof pulse;
    if (length) memcpy(p->call->room, &pulse, length);
}

/* Writes the result of a completion for its thread. */
static void answer(neutrino *k, struct place *p, const balsaeuchre_ending *row) {
    switch (row->mark) {
    case BALSAEUCHRE_MESSAGE:
        receive_message(k, p, row);
        break;
    case BALSAEUCHRE_PULSED:
        receive_pulse(k, p, row);
        break;
    case BALSAEUCHRE_FAILED:
        p->error = host_error(row->errno_);
        break;
    case BALSAEUCHRE_ERRORED:
        p->error = row->value;
        break;
    case BALSAEUCHRE_REPLIED:
        p->result = (long)row->status;
        break;
    case BALSAEUCHRE_COUNT:
        p->result = (long)row->count;
        break;
    case BALSAEUCHRE_CHANNEL:
        p->result = new_name(k, CHANNELS, row->id, p->pid);
        k->channels[place_in(&k->tables[CHANNELS], (int)p->result)].receiver = p->tid;
        break;
    case BALSAEUCHRE_CONNECTION:
        p->result = new_name(k, CONNECTIONS, row->id, p->pid);
        k->connections[place_in(&k->tables[CONNECTIONS], (int)p->result)].peer = p->number;
        break;
    case BALSAEUCHRE_INFORMED:
        fill_info(&k->places[k->place_of[row->sender]], row, p->call->info);
        break;
    case BALSAEUCHRE_THREAD_STATE:
        p->result = p->call->own_priority ? row->priority : row->state;
        break;
    case BALSAEUCHRE_DONE:
        if (p->kind == BALSAEUCHRE_CHANNEL_DESTROY) end_name(k, CHANNELS, p->number);
        if (p->kind == BALSAEUCHRE_CONNECT_DETACH) end_name(k, CONNECTIONS, p->number);
        break;
    default:
        abort();
    }
}

/* Delivers a completion. bytes are its event's bytes. */
static void deliver(neutrino *k, struct place *p, const balsaeuchre_ending *row, const uint8_t *bytes) {
    p->error = 0;
    p->result = 0;
    if (row->written) memcpy(p->room, bytes + row->start, row->written);
    answer(k, p, row);
    if (p->rcvid && p->kind == BALSAEUCHRE_SEND) {
        end_name(k, MESSAGES, p->rcvid);
        p->rcvid = 0;
    }
    p->state = STATE_READY;
    p->call = NULL;
}

/* Delivers the completions of an event, except for clocks. Returns a bit for each
 * thread whose call is completed. */
INLINED uint64_t deliver_rows(neutrino *k, const struct event *e) {
    uint64_t ended = 0;
    for (size_t at = 0; at < e->done.endings; at++) {
        int place = k->place_of[e->rows[at].thread];
        if (place == PLACES) continue;
        deliver(k, &k->places[place], &e->rows[at], e->bytes);
        ended |= 1ull << place;
    }
    return ended;
}

static uint64_t deliver_all(neutrino *k) { return deliver_rows(k, &k->event); }
