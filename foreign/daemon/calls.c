/* The calls of programs' threads. Tested, not proved. */

/* The table of the id that a call names, or NO_TABLE if it names none. TABLES: programs don't make this
 * call. */
static enum table table_of(uint8_t kind) {
    static const uint8_t tables[] = {[0] = TABLES,
                                     [BALSAEUCHRE_SHUTDOWN] = TABLES,
                                     [BALSAEUCHRE_CHANNEL_CREATE] = NO_TABLE,
                                     [BALSAEUCHRE_PRIORITY_SET] = NO_TABLE,
                                     [BALSAEUCHRE_STATE] = NO_TABLE,
                                     [BALSAEUCHRE_UNBLOCK] = NO_TABLE,
                                     [BALSAEUCHRE_CONNECT_ATTACH] = CHANNELS,
                                     [BALSAEUCHRE_RECEIVE] = CHANNELS,
                                     [BALSAEUCHRE_RECEIVE_PULSE] = CHANNELS,
                                     [BALSAEUCHRE_CHANNEL_DESTROY] = CHANNELS,
                                     [BALSAEUCHRE_SEND] = CONNECTIONS,
                                     [BALSAEUCHRE_PULSE] = CONNECTIONS,
                                     [BALSAEUCHRE_CONNECT_DETACH] = CONNECTIONS,
                                     [BALSAEUCHRE_REPLY] = MESSAGES,
                                     [BALSAEUCHRE_ERROR] = MESSAGES,
                                     [BALSAEUCHRE_READ] = MESSAGES,
                                     [BALSAEUCHRE_WRITE] = MESSAGES,
                                     [BALSAEUCHRE_INFO] = MESSAGES};
    return kind < sizeof tables ? tables[kind] : TABLES;
}

/* The low bits of an rcvid are its sender's place, and the others are the layer's number. So an rcvid leads
 * to the sender's place even after the reply. */
static int rcvid_of(int number, int process) { return number ? number << SLOT_BITS | process : 0; }

static int number_of_rcvid(int rcvid) { return rcvid > 0 ? rcvid >> SLOT_BITS : 0; }

/* The thread whose message is held under this number, or null. */
static struct place *sender_of(int number) {
    for (int at = 0; number && at < PLACES; at++) {
        if (k->places[at].rcvid == number) return &k->places[at];
    }
    return NULL;
}

/* The process whose program has this pid of the host, or 0. */
static int process_of(pid_t pid) {
    for (int at = 1; at <= limits.processes; at++) {
        if (pid && processes[at].peer.pid == pid && !processes[at].ended_as) return at;
    }
    return 0;
}

/* The client of a process's thread with this tid, or null. */
static struct client *thread_of(int process, int tid) {
    for (int at = 0; at < PLACES; at++) {
        if (client_of[at] && client_of[at]->process == process && client_of[at]->tid == tid) return client_of[at];
    }
    return NULL;
}

/* ---- answers */

/* The number of bytes of its room that a completed call sends back. */
static size_t length_of_answer(const struct client *c) {
    const struct place *p = c->place;
    size_t room = c->call.room_len, count = 0;
    switch (c->call.request.kind) {
    case BALSAEUCHRE_SEND:
        return c->wrote ? room : c->answer.count;
    case BALSAEUCHRE_RECEIVE:
        count = p->result ? (size_t)c->answer.info.msglen : sizeof(struct _pulse);
        break;
    case BALSAEUCHRE_RECEIVE_PULSE:
        count = sizeof(struct _pulse);
        break;
    case BALSAEUCHRE_READ:
        count = (size_t)p->result;
        break;
    default:
        break;
    }
    if (p->error) return 0;
    return count < room ? count : room;
}

/* Replaces the kernel's numbers by the host's. */
static void complete_info(struct _msg_info *info) {
    const struct client *sender = info->tid ? client_of[k->place_of[info->tid]] : NULL;
    info->scoid = processes[info->pid].scoid;
    info->pid = processes[info->pid].peer.pid;
    info->tid = sender ? sender->tid : 0;
    if (info->coid) info->coid = coid_at(place_in(&k->tables[CONNECTIONS], info->coid));
}

/* A receive got a pulse that the kernel made. The pulse's note says from which program it is. */
static void complete_kernel_pulse(struct client *c, const balsaeuchre_ending *row) {
    bool is_unblock = row->what == BALSAEUCHRE_WHAT_UNBLOCK;
    struct _pulse pulse;
    memset(&pulse, 0, sizeof pulse);
    pulse.type = _PULSE_TYPE;
    pulse.code = is_unblock ? _PULSE_CODE_UNBLOCK : _PULSE_CODE_DISCONNECT;
    struct note note = take_kernel_pulse(c->place->number, pulse.code, is_unblock ? row->rcvid : row->id);
    pulse.value.sival_int = (int)note.value;
    pulse.scoid = note.scoid;
    size_t length = c->call.room_len < sizeof pulse ? c->call.room_len : sizeof pulse;
    if (length) memcpy(c->call.room, &pulse, length);
}

/* Fills in the fields how, count, priority and info of an answer, from the call's completion. */
static void complete_answer(struct client *c) {
    struct wire_answer *a = &c->answer;
    for (size_t at = 0; at < k->event.done.endings; at++) {
        const balsaeuchre_ending *row = &k->event.rows[at];
        if (row->thread != c->place->tid) continue;
        bool is_cut = row->mark == BALSAEUCHRE_FAILED && row->call != k->event.done.call;
        a->how = row->mark == BALSAEUCHRE_ERRORED ? WIRE_CODE : is_cut ? WIRE_CUT : 0;
        a->priority = row->priority;
        a->count = row->mark == BALSAEUCHRE_REPLIED ? (uint32_t)row->count : 0;
        if (row->mark == BALSAEUCHRE_PULSED && row->what != BALSAEUCHRE_WHAT_USER) complete_kernel_pulse(c, row);
        if (row->mark != BALSAEUCHRE_THREAD_STATE || !row->id) continue;
        a->count = (uint32_t)number_of(k, CHANNELS, row->id);
        a->info.pid = k->channels[place_in(&k->tables[CHANNELS], (int)a->count)].owner;
    }
    if (a->info.pid) complete_info(&a->info);
}

/* Sends the answer of a completed call to its thread. */
static void end_call(struct client *c) {
    struct place *p = c->place;
    int kind = c->call.request.kind;
    long result = p->result;
    int sender = c->answer.info.pid;
    complete_answer(c);
    size_t length = length_of_answer(c);
    if (!p->error && kind == BALSAEUCHRE_RECEIVE && result) result = rcvid_of((int)result, sender);
    put_answer(c, p->error, result, c->call.room, length);
    drop_bytes(c);
    c->wrote = false;
}

/* The layer reports the threads whose calls are completed. They get their answers. */
static uint64_t tell(neutrino *of, uint64_t ended) {
    (void)of;
    for (; ended; ended &= ended - 1) {
        struct client *c = client_of[__builtin_ctzll(ended)];
        if (c) end_call(c);
    }
    return 0;
}

/* ---- calls */

/* Whether a thread's message is held on a channel with the flag UNBLOCK, whose server gets a
 * pulse before the call ends. */
static bool is_guarded(const struct place *p) {
    bool is_held = p->call && p->kind == BALSAEUCHRE_SEND && p->rcvid;
    return is_held && flags_of[place_in(&k->tables[CHANNELS], p->chid)] & BALSAEUCHRE_TELL_UNBLOCK;
}

/* Before an Unblock: makes the note of the pulse, if the Unblock makes one. Returns an errno or 0. */
static int note_unblock_pulse(const struct place *p) {
    if (!is_guarded(p) || p->asked) return 0;
    if (!has_room(p->chid)) return EAGAIN;
    uint64_t id = id_of(k, MESSAGES, p->rcvid, 0);
    note_kernel_pulse(p->chid, processes[p->pid].scoid, _PULSE_CODE_UNBLOCK, rcvid_of(p->rcvid, p->pid), id);
    return 0;
}

/* After an Unblock: removes the note if the kernel has refused the pulse. */
static void drop_unblock_pulse(const struct place *p) {
    if (is_guarded(p) && !p->asked) take_kernel_pulse(p->chid, _PULSE_CODE_UNBLOCK, id_of(k, MESSAGES, p->rcvid, 0));
}

/* Unblocks a thread that is in a call. */
static void interrupt(struct client *c, enum woken woken) {
    if (woken == WAS_INTERRUPTED) c->call.interrupted = true;
    bool noted = !note_unblock_pulse(c->place);
    uint64_t again = noted ? end_early(k, c->place, woken) : now() + RETRY * 1000000u;
    if (c->place->call) c->call.until = again;
    drop_unblock_pulse(c->place);
}

/* Prepares a call: checks the process's limits, makes the note of a pulse, and replaces the program's numbers
 * by the layer's. Returns an errno or 0. */
static int prepare_call(struct client *c) {
    const struct process *process = &processes[c->process];
    struct call *call = &c->call;
    int kind = call->request.kind;
    if (kind == BALSAEUCHRE_CHANNEL_CREATE && process->channels >= limits.channels) return EAGAIN;
    if (kind == BALSAEUCHRE_CONNECT_ATTACH && process->connections >= limits.connections) return EAGAIN;
    if (kind == BALSAEUCHRE_CHANNEL_CREATE) call->request.flags = (uint8_t)c->ask.value;
    if (kind == BALSAEUCHRE_CONNECT_ATTACH && !(call->owner = (uint8_t)process_of(c->ask.pid))) return ESRCH;
    bool attaches = kind == BALSAEUCHRE_CONNECT_ATTACH && id_of(k, CHANNELS, call->number, call->owner);
    if (attaches && !may_attach(c->process, call->number)) return EAGAIN;
    if (call->table == CONNECTIONS) call->number &= ~SIDE;
    if (call->table == MESSAGES) call->number = number_of_rcvid(call->number);
    if (kind == BALSAEUCHRE_PRIORITY_SET || kind == BALSAEUCHRE_STATE || kind == BALSAEUCHRE_UNBLOCK) {
        const struct client *target = thread_of(c->process, call->request.target);
        if (!target) return ESRCH;
        call->request.target = target->place->tid;
        if (kind == BALSAEUCHRE_UNBLOCK) return note_unblock_pulse(target->place);
    }
    if (kind != BALSAEUCHRE_PULSE) return 0;
    const struct name *connection = &k->connections[place_in(&k->tables[CONNECTIONS], call->number)];
    if (id_of(k, CONNECTIONS, call->number, c->process) && !has_room(connection->peer)) return EAGAIN;
    int scoid = processes[c->process].scoid;
    int note = new_note(connection->peer, scoid, call->request.pulse_code, (int64_t)c->ask.value);
    call->request.pulse_code = NOTED;
    call->request.value = note;
    return note == -1 ? EAGAIN : 0;
}

/* Updates the daemon's own tables after the kernel has made a call, before the answer. */
static void finish_call(struct client *c) {
    struct process *process = &processes[c->process];
    struct place *p = c->place;
    int kind = c->call.request.kind;
    if (p->error && kind == BALSAEUCHRE_PULSE) end_note(c->call.request.value);
    if (p->error || p->call) return;
    if (kind == BALSAEUCHRE_CONNECT_DETACH)
        note_detach(&k->connections[place_in(&k->tables[CONNECTIONS], c->call.number)], k->event.done.call);
    if (kind == BALSAEUCHRE_CHANNEL_CREATE)
        flags_of[place_in(&k->tables[CHANNELS], (int)p->result)] = c->call.request.flags;
    process->channels += (kind == BALSAEUCHRE_CHANNEL_CREATE) - (kind == BALSAEUCHRE_CHANNEL_DESTROY);
    process->connections += (kind == BALSAEUCHRE_CONNECT_ATTACH) - (kind == BALSAEUCHRE_CONNECT_DETACH);
    if (kind == BALSAEUCHRE_CONNECT_ATTACH) {
        is_side[place_in(&k->tables[CONNECTIONS], (int)p->result)] = c->ask.flags & WIRE_SIDE;
        if (c->ask.flags & WIRE_SIDE) p->result |= SIDE;
    }
    const struct place *sender = kind == BALSAEUCHRE_WRITE ? sender_of(c->call.number) : NULL;
    if (sender && client_of[sender - k->places]) client_of[sender - k->places]->wrote = true;
}

/* Prepares a new channel for the pulses about ends that its flags ask for. Destroys it if that fails. */
static void finish_channel(struct client *c) {
    struct place *p = c->place;
    int chid = (int)p->result;
    if (p->error || !(c->ask.value & DEATHS)) return;
    p->error = tell_of_ends(chid, (unsigned)c->ask.value);
    if (!p->error) return;
    make_hidden(balsaeuchre_request_of(BALSAEUCHRE_CHANNEL_DESTROY, clock_of(c->process),
                                       id_of(k, CHANNELS, chid, c->process)));
    end_name(k, CHANNELS, chid);
    processes[c->process].channels--;
}

/* Ends a call that is still open if its thread has given it up, is cancelled, or has timed out. */
static void end_at_once(struct client *c) {
    struct place *p = c->place;
    bool gives_up = c->given_up && c->given_up == c->ask.call;
    if (p->call && (gives_up || p->word == INTERRUPTED)) interrupt(c, WAS_INTERRUPTED);
    if (p->call && p->call->until && p->call->until <= now()) interrupt(c, TIMED_OUT);
}

static void make_call(struct client *c) {
    const struct wire_ask *a = &c->ask;
    uint64_t ended = 0, until = now() + a->time;
    if (until < a->time) until = UINT64_MAX;
    c->answer = (struct wire_answer){.error = 0};
    c->wrote = false;
    c->call = (struct call){.request = a->request,
                            .table = table_of(a->request.kind),
                            .number = a->number,
                            .own_priority = a->flags & WIRE_OWN_PRIORITY,
                            .states = a->states,
                            .until = a->states ? until : 0,
                            .sent = c->bytes,
                            .sent_len = a->sent_len,
                            .room = c->bytes + a->sent_len,
                            .room_len = a->room_len,
                            .info = &c->answer.info,
                            .cancels = a->flags & WIRE_CANCELS};
    int error = c->bytes ? prepare_call(c) : ENOMEM, kind = a->request.kind;
    if (!error && !(error = note_call(k, c->place, &c->call))) {
        error = make_under_lock(k, c->place, &c->call, &k->event, &ended);
        if (error && kind == BALSAEUCHRE_PULSE) end_note(c->call.request.value);
    }
    if (kind == BALSAEUCHRE_UNBLOCK && k->place_of[c->call.request.target] != PLACES)
        drop_unblock_pulse(&k->places[k->place_of[c->call.request.target]]);
    if (error) {
        drop_bytes(c);
        put_result(c, error, -1);
        return;
    }
    finish_call(c);
    if (kind == BALSAEUCHRE_CHANNEL_CREATE) finish_channel(c);
    bool destroyed = kind == BALSAEUCHRE_CHANNEL_DESTROY && !c->place->error;
    tell(k, ended);
    if (destroyed) end_channel(a->number);
    end_at_once(c);
}

/* Begins a call. Returns false if it is malformed. */
static bool begin_call(struct client *c, const struct wire_ask *a, const uint8_t *bytes) {
    if (a->sent_len > WIRE_MOST || a->room_len > WIRE_MOST || table_of(a->request.kind) == TABLES) return false;
    size_t came = a->sent_len + (a->request.kind == BALSAEUCHRE_SEND ? a->room_len : 0);
    c->ask = *a;
    take_bytes(c, (size_t)a->sent_len + a->room_len);
    if (came > LONG_ASK) wake_threads(); /* the threads that have their answers, before the copying */
    if (c->bytes) copy_once(c->bytes, bytes, came);
    make_call(c);
    return true;
}
