/* The front's requests to the daemon, in addition to the layer's calls. Tested, not proved. */

bool neutrino_remote(void) { return is_remote; }

int neutrino_remote_scoid(void) { return program_scoid; }

int neutrino_remote_channel(unsigned flags) {
    return (int)call_with(&(struct call){.request = {.kind = BALSAEUCHRE_CHANNEL_CREATE}}, flags, 0, 0);
}

int neutrino_remote_attach(pid_t pid, int chid, bool is_side) {
    struct call c = {.request = {.kind = BALSAEUCHRE_CONNECT_ATTACH}, .number = chid};
    return (int)call_with(&c, 0, pid, is_side ? WIRE_SIDE : 0);
}

static balsaeuchre_request pulse_of(int priority, int code) {
    return (balsaeuchre_request){.kind = BALSAEUCHRE_PULSE, .priority = (uint8_t)priority, .pulse_code = (int8_t)code};
}

/* Asks for a pulse by the clock of the program whose message has this rcvid, over one of that program's
 * connections. rcvid 0: this program. */
static long ask_for_pulse(int rcvid, int coid, balsaeuchre_request pulse, union sigval value, unsigned flags) {
    struct wire_ask ask = {.op = OP_EVENT,
                           .number = rcvid,
                           .request = pulse,
                           .flags = flags,
                           .value = (uint64_t)(intptr_t)value.sival_ptr};
    ask.request.id = (uint64_t)(uint32_t)coid;
    return ask_plainly(&ask);
}

/* The front's own thread has no seat, so the program's clock sends its pulses. */
int neutrino_remote_pulse(int coid, int priority, int code, union sigval value) {
    struct call c = {.request = pulse_of(priority, code), .number = coid, .own_priority = priority == -1};
    if (self) return (int)call_with(&c, (uint64_t)(intptr_t)value.sival_ptr, 0, 0);
    return (int)ask_for_pulse(0, coid, c.request, value, priority == -1 ? WIRE_OWN_PRIORITY : 0);
}

static long ask_by_name(struct wire_ask ask, const char *name, struct wire_answer *answer) {
    struct iovec bytes = {(void *)(uintptr_t)name, strlen(name)};
    return bytes.iov_len < WIRE_NAME ? ask_daemon(&ask, bytes, answer, (struct iovec){NULL, 0}) : fail(ENOENT);
}

int neutrino_remote_name(const char *name, int chid) {
    struct wire_answer answer;
    return (int)ask_by_name((struct wire_ask){.op = OP_NAME, .number = chid}, name, &answer);
}

int neutrino_remote_unname(int chid) { return (int)ask_about(OP_UNNAME, chid); }

int neutrino_remote_find(const char *name, pid_t *pid) {
    struct wire_answer answer = {.error = 0};
    int chid = (int)ask_by_name((struct wire_ask){.op = OP_FIND}, name, &answer);
    *pid = answer.info.pid;
    return chid;
}

int neutrino_remote_client(int scoid, struct wire_client *client) {
    struct wire_ask ask = {.op = OP_CLIENT, .number = scoid};
    struct wire_answer answer;
    return (int)ask_daemon(&ask, (struct iovec){NULL, 0}, &answer, (struct iovec){client, sizeof *client});
}

/* Asks by the program's socket, because an answer in a box can't bring a file. */
int neutrino_remote_sender(int rcvid, pid_t *pid) {
    int cancel, ignored, found[2] = {-1, -1};
    struct iovec none = {NULL, 0};
    struct wire_ask ask = {.op = OP_SENDER, .number = rcvid};
    struct wire_answer answer;
    if (inside || program_socket == -1) return fail(inside ? EDEADLK : ESHUTDOWN);
    pthread_setcancelstate(PTHREAD_CANCEL_DISABLE, &cancel);
    inside++;
    pthread_mutex_lock(&asking);
    *pid = (pid_t)exchange(program_socket, &ask, none, &answer, none, found);
    pthread_mutex_unlock(&asking);
    int error = errno;
    inside--;
    pthread_setcancelstate(cancel, &ignored);
    return *pid == -1 ? fail(error) : found[0];
}

int neutrino_remote_deliver(int rcvid, const struct sigevent *event, bool delivers) {
    balsaeuchre_request pulse = pulse_of(event->sigev_priority, event->sigev_code);
    unsigned flags = (event->sigev_priority == -1 ? WIRE_OWN_PRIORITY : 0) | (delivers ? 0 : WIRE_TESTS);
    return (int)ask_for_pulse(rcvid, event->sigev_coid, pulse, event->sigev_value, flags);
}

void neutrino_remote_death(int tid) { ask_about(OP_DEATH, tid); }

int neutrino_remote_unblock(int rcvid) { return (int)ask_about(OP_UNBLOCK, rcvid); }

int neutrino_remote_show(int fd) {
    enum { MOST_TEXT = 16384 + 64 * WIRE_NAME };
    /* The text is too long for the stacks of some threads. */
    struct iovec none = {NULL, 0}, text = {malloc(MOST_TEXT), MOST_TEXT};
    struct wire_ask ask = {.op = OP_SHOW};
    struct wire_answer answer;
    if (!text.iov_base) return fail(ENOMEM);
    bool told = ask_daemon(&ask, none, &answer, text) != -1 && write(fd, text.iov_base, answer.length) >= 0;
    int error = errno;
    free(text.iov_base);
    return told ? 0 : fail(error);
}
