/* The calling thread's socket, box and bell, by which it asks the daemon. Tested, not proved. */
#include <poll.h>
#include <sys/mman.h>

/* A thread spins at its box before it sleeps. A call that waits for another program spins only with three
 * processors: one for each program and one for the daemon. LONG: nanoseconds after which a wait is long. */
enum { LOOKS = 100, LONG_LOOKS = 500, LONG = 100000000 };

static _Thread_local struct {
    int socket, bell, processors;
    bool is_lost; /* the daemon has ended */
    int priority; /* as the thread set it last */
    struct wire_box *box;
} own = {-1, -1, 1, false, 0, NULL};

/* Wakes the daemon. Signal handlers may call it, too. */
static void ring(void) {
    const uint64_t once = 1;
    int error = errno;
    if (write(own.bell, &once, sizeof once) < 0) errno = error;
}

static bool has_answer(void) { return atomic_load_explicit(&own.box->word, memory_order_acquire) == WIRE_ANSWERED; }

/* How many times a thread looks for the answer before it sleeps. */
static int looks_for(const struct wire_ask *ask) {
    int kind = ask->op == OP_CALL ? ask->request.kind : 0;
    bool waits = kind == BALSAEUCHRE_SEND || kind == BALSAEUCHRE_RECEIVE || kind == BALSAEUCHRE_RECEIVE_PULSE;
    return own.processors > (waits ? 2 : 1) ? waits ? LONG_LOOKS : LOOKS : 0;
}

/* Sleeps until the daemon has sent the byte that follows the answer, or until the daemon has ended. A signal ends poll,
 * but the host may begin recv again. Then ThreadSanitizer would keep the signal until the answer. */
static void sleep_at_socket(void) {
    struct pollfd answered = {.fd = own.socket, .events = POLLIN};
    char byte;
    do poll(&answered, 1, -1);
    while (recv(own.socket, &byte, 1, MSG_DONTWAIT) == -1 && (errno == EINTR || errno == EAGAIN));
}

/* Waits for the answer. A daemon that is killed doesn't change the word, but the host closes its
 * sockets. So a thread that has slept at the word for a while then sleeps at its socket. Returns
 * false if the daemon is gone. */
static bool wait_for_answer(int looks) {
    uint32_t open = WIRE_OPEN, asleep = WIRE_ASLEEP;
    for (; looks && !has_answer(); looks--) pause_briefly();
    if (!atomic_compare_exchange_strong(&own.box->word, &open, WIRE_ASLEEP)) return has_answer();
    uint64_t until = now() + LONG;
    struct timespec end = {(time_t)(until / 1000000000u), (long)(until % 1000000000u)};
    while (atomic_load(&own.box->word) == WIRE_ASLEEP) {
        long woken = syscall(SYS_futex, &own.box->word, FUTEX_WAIT_BITSET, WIRE_ASLEEP, &end, NULL,
                             FUTEX_BITSET_MATCH_ANY);
        if (woken == 0 || errno != ETIMEDOUT) continue;
        if (atomic_compare_exchange_strong(&own.box->word, &asleep, WIRE_AT_SOCKET)) sleep_at_socket();
    }
    return has_answer();
}

/* Puts a request into the box, with the bytes of two buffers, and waits for the answer. Returns
 * and fails as exchange does. */
static long ask_by_box(const struct wire_ask *ask, const struct iovec sent[2], struct wire_answer *answer,
                       struct iovec room) {
    struct wire_box *box = own.box;
    uint8_t *to = box->bytes;
    for (int at = 0; at < 2; to += sent[at++].iov_len) {
        if (sent[at].iov_len) memcpy(to, sent[at].iov_base, sent[at].iov_len);
    }
    box->ask = *ask;
    atomic_store_explicit(&box->word, WIRE_OPEN, memory_order_relaxed);
    atomic_fetch_add(&box->asked, 1);
    if (atomic_load(&box->rings)) ring();
    if (!wait_for_answer(looks_for(ask))) return fail(ESHUTDOWN);
    *answer = box->answer;
    if (answer->length > room.iov_len) return fail(ESHUTDOWN);
    if (answer->length) memcpy(room.iov_base, box->bytes, answer->length);
    return answer->error ? fail(answer->error) : (long)answer->result;
}

static void close_box(void) {
    if (own.box) munmap(own.box, sizeof *own.box);
    if (own.bell != -1) close(own.bell);
    if (own.socket != -1) close(own.socket);
    own.socket = own.bell = -1;
    own.box = NULL;
}

/* Opens the socket, the box and the bell of the calling thread. Returns 0, or -1 and sets errno. */
static int open_box(const char *path, struct wire_ask *ask, struct wire_answer *answer) {
    int files[2] = {-1, -1};
    struct iovec none = {NULL, 0};
    cpu_set_t processors;
    own.socket = connect_to(path);
    bool joined = own.socket != -1 && !exchange(own.socket, ask, none, answer, none, files);
    void *box = joined ? mmap(NULL, sizeof *own.box, PROT_READ | PROT_WRITE, MAP_SHARED, files[0], 0) : MAP_FAILED;
    int error = errno;
    if (files[0] != -1) close(files[0]);
    own.bell = files[1];
    own.box = box != MAP_FAILED ? box : NULL;
    own.processors = sched_getaffinity(0, sizeof processors, &processors) ? 1 : CPU_COUNT(&processors);
    if (own.box && !madvise(box, sizeof *own.box, MADV_DONTFORK)) return 0;
    close_box();
    return fail(error);
}
