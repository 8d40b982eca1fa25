/* Reads packets and boxes. Tested, not proved. */

/* Answers a request other than a call, of a program's own socket or of a thread's box. Returns
 * false for a malformed request. */
static bool serve(struct client *c, const struct wire_ask *a, const uint8_t *bytes) {
    bool has_bytes = a->op == OP_NAME || a->op == OP_FIND;
    if (a->sent_len && !has_bytes) return false;
    c->answer = (struct wire_answer){.error = 0};
    switch (a->op) {
    case OP_NAME:
        attach_name(c, a, bytes);
        break;
    case OP_UNNAME:
        detach_name(c, a);
        break;
    case OP_FIND:
        look_up_name(c, a, bytes);
        break;
    case OP_CLIENT:
        tell_client(c, a);
        break;
    case OP_SENDER:
        if (c->box) return false; /* an answer in a box can't bring a file */
        tell_sender(c, a);
        break;
    case OP_EVENT:
        deliver_event(c, a);
        break;
    case OP_DEATH:
        tell_process(c->process, THREAD_DEATH, CODE_THREADDEATH, a->number);
        put_result(c, 0, 0);
        break;
    case OP_UNBLOCK:
        unblock_sender(c, a);
        break;
    case OP_CANCEL:
        cancel_thread(c, a);
        break;
    case OP_SHOW:
        show_all(c);
        break;
    default:
        return false;
    }
    return true;
}

/* Takes the first request of a socket, which says whether it is a program's, a thread's or pidin's. Returns
 * false for any other request. */
static bool join(struct client *c, const struct wire_ask *a) {
    if (a->sent_len || (a->op != OP_PROCESS && a->op != OP_THREAD && a->op != OP_SHOW)) return false;
    if (a->op == OP_PROCESS) join_process(c, a);
    if (a->op == OP_THREAD) join_thread(c, a);
    if (a->op == OP_SHOW) show_all(c);
    return true;
}

/* Takes a request, whose bytes may still change. Returns false if no program would send it.
 * Then the socket is closed. */
static bool take_ask(struct client *c, const struct wire_ask *a, const uint8_t *bytes) {
    if (!c->is_process && !c->place) return join(c, a);
    if (c->place && c->place->call) return false;
    if (a->op != OP_CALL) return serve(c, a, bytes);
    return c->place && begin_call(c, a, bytes);
}

/* Takes a packet. Returns false if it is malformed, or if its thread has a box and so sends no packets. */
static bool take_packet(struct client *c, const uint8_t *packet, size_t length) {
    struct wire_ask a;
    if (length < sizeof a || length > sizeof a + WIRE_NAME || c->box) return false;
    memcpy(&a, packet, sizeof a);
    return a.sent_len == length - sizeof a && take_ask(c, &a, packet + sizeof a);
}

/* Reads one packet, if there is one. */
static void read_packet(struct client *c) {
    _Alignas(box_word) uint8_t packet[sizeof(struct wire_ask) + WIRE_NAME + 1];
    ssize_t length = recv(c->fd, packet, sizeof packet, MSG_DONTWAIT);
    if (length < 0 && (errno == EAGAIN || errno == EINTR)) return;
    if (length <= 0 || !take_packet(c, packet, (size_t)length)) hang_up(c);
}

/* Takes a request from a thread's box. */
static void take_from_box(struct client *c, const struct wire_ask *a) {
    int process = c->process;
    bool is_long = (uint64_t)a->sent_len + a->room_len > LONG_ASK;
    uint64_t since = is_long ? now() : 0;
    processes[process].asked_at = turn;
    if (!take_ask(c, a, c->box->bytes)) hang_up(c);
    else if (is_long) pay_for_ask(process, since);
}

/* Takes the news of a thread's box: a request, or that the thread gives up its call.
 * Returns whether there was any. */
static bool read_box(struct client *c) {
    struct wire_box *box = c->box;
    uint32_t asked = atomic_load(&box->asked), given_up = atomic_load(&box->given_up);
    bool is_ask = asked != c->asked, gives_up = given_up != c->given_up;
    if (is_ask && !has_turn(c->process)) return false;
    c->asked = asked;
    c->given_up = given_up;
    if (is_ask) {
        struct wire_ask a;
        copy_once(&a, &box->ask, sizeof a);
        if (c->rings) atomic_store_explicit(&box->rings, 0, memory_order_relaxed);
        c->rings = false;
        take_from_box(c, &a);
    } else if (gives_up && c->place->call && c->ask.call == given_up) {
        interrupt(c, WAS_INTERRUPTED);
    }
    return is_ask || gives_up;
}

/* Looks at each box. Returns whether there was any news. */
static bool look_at_boxes(void) {
    bool found = false;
    turn = now();
    has_later = false;
    for (int at = 0; at < PLACES; at++) {
        if (client_of[at] && client_of[at]->box) found |= read_box(client_of[at]);
    }
    return found;
}

/* Before the daemon sleeps: from now on a thread has to ring its bell. */
static void want_bells(void) {
    for (int at = 0; at < PLACES; at++) {
        struct client *c = client_of[at];
        if (!c || !c->box || c->rings) continue;
        c->rings = true;
        atomic_store(&c->box->rings, 1);
    }
}
