/* Requests of programs other than calls: names, clients, events. Tested, not proved. */

/* Reads the name in a request's bytes. Returns an errno or 0. */
static int read_name(const struct wire_ask *a, const uint8_t *bytes, char name[WIRE_NAME]) {
    if (!a->sent_len || a->sent_len >= WIRE_NAME) return EINVAL;
    copy_once(name, bytes, a->sent_len);
    name[a->sent_len] = 0;
    return strlen(name) == a->sent_len ? 0 : EINVAL;
}

/* The place of the channel with this name, or -1. */
static int find_name(const char *name) {
    for (int at = 0; at < CHANNEL_PLACES; at++) {
        if (*names[at] && !strcmp(names[at], name)) return at;
    }
    return -1;
}

static void attach_name(struct client *c, const struct wire_ask *a, const uint8_t *bytes) {
    char name[WIRE_NAME];
    int error = read_name(a, bytes, name), place = place_in(&k->tables[CHANNELS], a->number);
    if (!error && find_name(name) != -1) error = EEXIST;
    if (!error && (!id_of(k, CHANNELS, a->number, c->process) || *names[place])) error = EINVAL;
    if (!error) strcpy(names[place], name);
    put_result(c, error, 0);
}

static void detach_name(struct client *c, const struct wire_ask *a) {
    int place = place_in(&k->tables[CHANNELS], a->number);
    bool known = id_of(k, CHANNELS, a->number, c->process) && *names[place];
    if (known) *names[place] = 0;
    put_result(c, known ? 0 : EINVAL, 0);
}

static void look_up_name(struct client *c, const struct wire_ask *a, const uint8_t *bytes) {
    char name[WIRE_NAME];
    int error = read_name(a, bytes, name), place = error ? -1 : find_name(name);
    if (!error && place == -1) error = ENOENT;
    if (place != -1) c->answer.info.pid = processes[k->channels[place].owner].peer.pid;
    put_result(c, error, error ? -1 : chid_at(place));
}

static void tell_client(struct client *c, const struct wire_ask *a) {
    int process = a->number & ((1 << SLOT_BITS) - 1);
    bool known = process && processes[process].peer.pid && processes[process].scoid == a->number;
    const struct process *of = &processes[known ? process : 0];
    struct wire_client told_client = {of->peer.pid, of->peer.uid, of->peer.gid, of->ngroups, {0}};
    for (uint32_t at = 0; at < of->ngroups; at++) told_client.groups[at] = of->groups[at];
    put_answer(c, known ? 0 : EINVAL, 0, &told_client, known ? sizeof told_client : 0);
}

/* Whether a process is a client of a server, that is, connected to a channel of the server. */
static bool is_client(int process, int server) {
    for (int at = 0; at < CONNECTION_PLACES; at++) {
        const struct name *name = &k->connections[at];
        if (!name->id || name->owner != process) continue;
        const struct name *channel = &k->channels[place_in(&k->tables[CHANNELS], name->peer)];
        if (id_of(k, CHANNELS, name->peer, (uint8_t)server) && channel->owner == server) return true;
    }
    return false;
}

/* Whether a message's number was given after a program joined. If several serials have this
 * number, the last one counts. */
static bool is_since(int number, const struct process *of) {
    const struct names *names = &k->tables[MESSAGES];
    int back = number_at(names, k->next[MESSAGES] - 1) - number;
    if (back < 0) back += (int)(names->turns << names->bits);
    return number > 0 && of->first + (uint64_t)back < k->next[MESSAGES];
}

/* The process whose program sent the message of an rcvid of this program. For rcvid 0, this program's
 * process. Returns 0 if there is none, if it has ended, or if it isn't a client of this program. */
static int process_of_rcvid(const struct client *c, int rcvid) {
    int process = rcvid ? rcvid & ((1 << SLOT_BITS) - 1) : c->process;
    const struct process *of = &processes[process];
    if (rcvid < 0 || !of->peer.pid || of->ended_as) return 0;
    if (process == c->process) return process;
    return is_since(number_of_rcvid(rcvid), of) && is_client(process, c->process) ? process : 0;
}

/* The answer brings the pidfd of the sender's program. So the host decides whether the server may signal that
 * program, and no signal reaches a later process with its pid. */
static void tell_sender(struct client *c, const struct wire_ask *a) {
    int process = process_of_rcvid(c, a->number);
    c->answer.error = process ? 0 : ESRCH;
    c->answer.result = process ? processes[process].peer.pid : -1;
    send_answer(c, NULL, &processes[process].pidfd, process ? 1 : 0);
}

static void deliver_event(struct client *c, const struct wire_ask *a) {
    int process = process_of_rcvid(c, a->number), coid = (int)a->request.id & ~SIDE;
    uint64_t id = process ? id_of(k, CONNECTIONS, coid, (uint8_t)process) : 0;
    int chid = k->connections[place_in(&k->tables[CONNECTIONS], coid)].peer;
    balsaeuchre_request request = balsaeuchre_request_of(BALSAEUCHRE_PULSE, clock_of(process), id);
    request.priority = a->request.priority;
    if (a->flags & WIRE_OWN_PRIORITY) request.priority = c->place ? priority_of(k, c->place) : USUAL;
    struct note content = {.chid = chid, .scoid = processes[c->process].scoid, .code = a->request.pulse_code};
    content.value = (int64_t)a->value;
    int error = 0;
    if (!process) error = ESRCH;
    else if (!id) error = EBADF;
    else if (!request.priority) error = EINVAL;
    if (!error && !(a->flags & WIRE_TESTS)) error = has_room(chid) ? send_pulse(request, &content) : EAGAIN;
    put_result(c, error, 0);
}

static void unblock_sender(struct client *c, const struct wire_ask *a) {
    int number = number_of_rcvid(a->number);
    struct place *p = id_of(k, MESSAGES, number, c->process) ? sender_of(number) : NULL;
    if (p && client_of[p - k->places]) interrupt(client_of[p - k->places], WAS_INTERRUPTED);
    put_result(c, p ? 0 : ESRCH, 0);
}

/* Cancels a thread of the program: ends its call, and each later call that has to wait. */
static void cancel_thread(struct client *c, const struct wire_ask *a) {
    struct client *target = thread_of(c->process, a->number);
    if (target) target->place->cancelled = true;
    if (target && target->place->call && target->call.cancels) interrupt(target, WAS_INTERRUPTED);
    put_result(c, target ? 0 : ESRCH, 0);
}
