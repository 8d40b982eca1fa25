/* A libFuzzer harness for the functions that read packets and boxes. The input is requests for the sockets of
 * one program, in one kernel that stays. It includes daemon.c, whose main then has another name. */
#define main balsaeuchred_main
#include "../daemon.c"
#undef main

enum { SOCKETS = 4 };

static int far[SOCKETS];         /* the clients' ends */
static int results[2 * SOCKETS]; /* of the last answers; later packets may name them */

static struct client *open_socket(int at) {
    static uint64_t came;
    int ends[2];
    struct wire_ask ask = {.op = at ? OP_THREAD : OP_PROCESS, .number = at ? at : WIRE_VERSION, .value = USUAL};
    if (socketpair(AF_UNIX, SOCK_SEQPACKET | SOCK_NONBLOCK, 0, ends)) abort();
    struct client *c = new_client();
    *c = no_client;
    c->is_used = true;
    c->fd = ends[0];
    c->peer.pid = getpid();
    c->came_as = ++came;
    if (!watch(c->fd, EPOLLIN, c)) abort();
    far[at] = ends[1];
    if (!take_packet(c, (const uint8_t *)&ask, sizeof ask)) abort();
    return c;
}

/* Makes a request with the most usual fields from eight bytes of the input. */
static struct wire_ask ask_from(const uint8_t *data) {
    struct wire_ask ask = {.op = data[1] % 32 ? OP_CALL : (uint32_t)data[1] / 16, .call = data[2] & 3, .pid = getpid()};
    ask.number = data[3] < 240 ? results[data[3] % (2 * SOCKETS)] : data[3];
    ask.request = balsaeuchre_request_of(data[2] >> 2, 0, data[3]);
    ask.request.priority = data[4];
    ask.request.target = data[4] % 8;
    ask.value = data[4];
    ask.states = data[5] & 15 ? 0 : -1;
    ask.flags = data[5] >> 4;
    ask.sent_len = (uint32_t)data[6] << (data[6] % 16 == 1 ? 12 : 0);
    ask.room_len = (uint32_t)data[7] << (data[7] % 16 == 1 ? 12 : 0);
    return ask;
}

static void note_result(const struct wire_answer *answer) {
    static int next;
    if (answer->result > 0) results[next++ % (2 * SOCKETS)] = (int)answer->result;
}

static void read_answers(struct client *all[SOCKETS]) {
    struct wire_answer answer;
    for (int at = 0; at < SOCKETS; at++) {
        while (recv(far[at], &answer, sizeof answer, MSG_DONTWAIT) == sizeof answer) note_result(&answer);
        if (all[at]->box && atomic_exchange(&all[at]->box->word, WIRE_OPEN) == WIRE_ANSWERED)
            note_result(&all[at]->box->answer);
    }
}

/* Puts one request of the input into a packet or a box. Returns how many bytes of the input it took. */
static size_t take_one(struct client *c, const uint8_t *data, size_t size) {
    static uint8_t packet[sizeof(struct wire_ask) + WIRE_NAME + 1];
    bool is_raw = data[0] & 64;
    struct wire_ask ask = ask_from(data);
    size_t behind = c->box ? 64 : data[7], from = 8 + (behind < size - 8 ? behind : size - 8);
    if (ask.op != OP_CALL && !is_raw) ask.sent_len = (uint32_t)behind;
    if (c->box) {
        memcpy(c->box->bytes, data + 8, from - 8);
        c->box->ask = ask;
        atomic_fetch_add(&c->box->asked, !is_raw);
        atomic_store(&c->box->given_up, data[6] & 3);
        read_box(c);
        return from;
    }
    memset(packet, 1, sizeof packet);
    memcpy(packet, &ask, sizeof ask);
    memcpy(packet + (is_raw ? 0 : sizeof ask), data + 8, from - 8);
    if (!take_packet(c, packet, is_raw ? behind : sizeof ask + behind)) hang_up(c);
    return from;
}

/* The input is a list of packets. Each has one byte for the socket, seven bytes for the request's
 * fields, and the request's bytes. */
int LLVMFuzzerTestOneInput(const uint8_t *data, size_t size) {
    struct client *all[SOCKETS];
    static bool opened;
    if (!opened) {
        events = epoll_create1(0);
        if (!fill_limits() || open_all()) abort();
        opened = true;
    }
    for (int at = 0; at < SOCKETS; at++) all[at] = open_socket(at);
    while (size >= 8 && all[0]->fd != -1) {
        struct client *c = all[data[0] % SOCKETS];
        size_t taken = c->fd != -1 ? take_one(c, data, size) : 8;
        end_late_calls();
        read_answers(all);
        data += taken;
        size -= taken;
    }
    if (all[0]->fd != -1) hang_up(all[0]);
    for (int at = 0; at < SOCKETS; at++) close(far[at]);
    leave_seats();
    if (ending || gone) abort(); /* no server leaves pulses unreceived, so everything is gone */
    for (int at = 0; at < CONNECTION_PLACES; at++) {
        if (k->connections[at].id) abort();
    }
    return 0;
}
