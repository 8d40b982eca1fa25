/* hostile SECONDS SEED: hostile programs use the protocol of wire.h in ways in which no library does. Honest
 * programs run at the same time, and have to continue. The hostile programs join, create channels, send,
 * receive, reply, deliver events, unblock and cancel. They use numbers of their own, of others or of nobody,
 * and change their boxes while the daemon reads them. They are killed in any state. */
#define _GNU_SOURCE
#include "tests.h"

#include <stdatomic.h>
#include <sys/mman.h>
#include <sys/socket.h>
#include <sys/un.h>
#include <time.h>

#include "wire.h"

enum { HOSTILE = 3, HONEST = 2, THREADS = 6, NUMBERS = 64, LONGEST = 3000, ROOM = 100000, SPINS = 200 };
enum kind { CHIDS, COIDS, RCVIDS, SCOIDS, KINDS };

struct shared {
    volatile long count[HONEST], asks, results;
    volatile int numbers[KINDS][NUMBERS]; /* of all hostile programs */
    volatile pid_t pids[NUMBERS];         /* the pids of programs */
};
static struct shared *shared;

static int below(int most) { return rand() % most; }

/* ---- honest programs */

static void invert(char *bytes, size_t length) {
    for (size_t at = 0; at < length; at++) bytes[at] = (char)~bytes[at];
}

static void serve_honestly(void *unused) {
    static char room[2 * WIRE_MOST];
    (void)unused;
    name_attach_t *name = name_attach(NULL, "honest", 0);
    check(name);
    for (;;) {
        struct _msg_info info;
        rcvid_t rcvid = MsgReceive(name->chid, room, sizeof room, &info);
        uint16_t type;
        memcpy(&type, room, sizeof type);
        check(rcvid >= 0);
        if (rcvid == 0) continue;
        check(info.msglen <= info.srcmsglen && info.pid > 0 && info.scoid > 0);
        bool is_open = type == _IO_CONNECT && info.msglen >= 2;
        if (!is_open) invert(room, (size_t)info.msglen);
        check(MsgReply(rcvid, is_open ? EOK : info.msglen, room, is_open ? 0 : (size_t)info.msglen) == 0 ||
              errno == ESRCH);
    }
}

static void ask_honestly(void *at) {
    static char sent[LONGEST], back[LONGEST];
    const struct sched_param param = {.sched_priority = 200};
    int coid = open_name("honest");
    srand((unsigned)getpid());
    check(SchedSet(0, 0, SCHED_RR, &param) == 0);
    for (;;) {
        size_t length = 2 + (size_t)below(LONGEST - 2);
        for (size_t byte = 0; byte < length; byte++) sent[byte] = (char)(rand() | 1);
        memset(sent, 0x7f, 2); /* a type other than _IO_CONNECT */
        check(MsgSend(coid, sent, length, back, sizeof back) == (long)length);
        invert(back, length);
        check(memcmp(sent, back, length) == 0);
        shared->count[(intptr_t)at]++;
    }
}

/* ---- hostile programs */

static int program = -1;
static struct {
    int fd, bell;
    uint32_t call;
    uint8_t kind;
    struct wire_box *box;
} threads[THREADS];

static int any(enum kind kind) { return shared->numbers[kind][below(NUMBERS)]; }

static void note(enum kind kind, int64_t number) {
    if (number > 0 && number <= INT32_MAX) shared->numbers[kind][below(NUMBERS)] = (int)number;
}

/* Returns a number of this kind of any program. Sometimes it is near to such a number,
 * of another kind, or random. */
static int number_of_kind(enum kind kind) {
    switch (below(20)) {
    case 0:
        return any(kind) + below(3) - 1;
    case 1:
        return any((enum kind)below(KINDS));
    case 2:
        return rand();
    case 3:
        return any(kind) ^ 1 << below(31);
    default:
        return any(kind);
    }
}

static int connect_to(void) {
    struct sockaddr_un address = {.sun_family = AF_UNIX};
    strncpy(address.sun_path, getenv("BALSAEUCHRE_SYSTEM"), sizeof address.sun_path - 1);
    for (;;) {
        int fd = socket(AF_UNIX, SOCK_SEQPACKET, 0);
        if (!connect(fd, (struct sockaddr *)&address, sizeof address)) return fd;
        check(errno == EAGAIN && close(fd) == 0);
        usleep(1000);
    }
}

/* Sends a request as a packet. Returns the error of the answer, or -1 if the socket is closed. files
 * gets the files of the answer. */
static int exchange(int fd, const struct wire_ask *ask, const void *bytes, struct wire_answer *answer, int files[2]) {
    static char text[100000];
    union {
        struct cmsghdr head;
        char room[CMSG_SPACE(2 * sizeof(int))];
    } rights = {.head = {0}};
    struct iovec out[] = {{(void *)(uintptr_t)ask, sizeof *ask}, {(void *)(uintptr_t)bytes, ask->sent_len}};
    struct iovec in[] = {{answer, sizeof *answer}, {text, sizeof text}};
    struct msghdr packet = {.msg_iov = out, .msg_iovlen = 2};
    files[0] = files[1] = -1;
    if (sendmsg(fd, &packet, MSG_NOSIGNAL) < 0) return -1;
    packet = (struct msghdr){.msg_iov = in, .msg_iovlen = 2, .msg_control = &rights, .msg_controllen = sizeof rights};
    if (recvmsg(fd, &packet, 0) < (ssize_t)sizeof *answer) return -1;
    if (rights.head.cmsg_len >= CMSG_LEN(sizeof(int)))
        memcpy(files, CMSG_DATA(&rights.head), rights.head.cmsg_len - CMSG_LEN(0));
    return answer->error;
}

static void close_thread(int at) {
    if (threads[at].box) {
        munmap(threads[at].box, sizeof *threads[at].box);
        close(threads[at].bell);
    }
    if (threads[at].fd > 0) close(threads[at].fd);
    threads[at].box = NULL;
    threads[at].fd = 0;
}

static void open_thread(int at) {
    struct wire_ask ask = {.op = OP_THREAD, .number = 1 + at, .value = (uint64_t)(1 + below(100)), .pid = getpid()};
    struct wire_answer answer;
    int files[2];
    close_thread(at);
    threads[at].fd = connect_to();
    if (exchange(threads[at].fd, &ask, NULL, &answer, files)) return;
    threads[at].box = mmap(NULL, sizeof *threads[at].box, PROT_READ | PROT_WRITE, MAP_SHARED, files[0], 0);
    check(threads[at].box != MAP_FAILED && close(files[0]) == 0);
    threads[at].bell = files[1];
    threads[at].kind = 0;
    atomic_store(&threads[at].box->word, WIRE_ANSWERED);
}

/* Sends a request by the program's own socket, about names, clients, senders or events. Returns
 * false if the socket is closed. */
static bool ask_by_program(void) {
    static const uint32_t ops[] = {OP_NAME,  OP_UNNAME, OP_FIND,    OP_CLIENT, OP_SENDER,
                                   OP_EVENT, OP_DEATH,  OP_UNBLOCK, OP_CANCEL, OP_SHOW};
    struct wire_ask ask = {.op = ops[below(sizeof ops / sizeof *ops)]};
    struct wire_answer answer = {.error = 0};
    char name[20] = "honest";
    int files[2];
    if (below(2)) snprintf(name, sizeof name, "h%d", below(5));
    bool has_name = ask.op == OP_NAME || ask.op == OP_FIND;
    if (has_name) ask.sent_len = (uint32_t)(below(20) ? strlen(name) : (size_t)below(sizeof name));
    ask.number = number_of_kind(ask.op == OP_CLIENT ? SCOIDS : has_name || ask.op == OP_UNNAME ? CHIDS : RCVIDS);
    if (ask.op == OP_DEATH || ask.op == OP_CANCEL) ask.number = below(10);
    ask.request = balsaeuchre_request_of(BALSAEUCHRE_PULSE, 0, (uint64_t)(uint32_t)number_of_kind(COIDS));
    ask.request.priority = (uint8_t)below(100);
    ask.request.pulse_code = (int8_t)rand();
    ask.flags = (uint32_t)below(16);
    int error = exchange(program, &ask, name, &answer, files);
    if (error == 0 && ask.op == OP_FIND) note(CHIDS, answer.result);
    if (error == 0 && ask.op == OP_FIND) shared->pids[below(NUMBERS)] = answer.info.pid;
    if (files[0] != -1) close(files[0]);
    shared->results += error == 0;
    return error != -1;
}

static enum kind kind_of(uint8_t call) {
    switch (call) {
    case BALSAEUCHRE_SEND:
    case BALSAEUCHRE_PULSE:
    case BALSAEUCHRE_CONNECT_DETACH:
        return COIDS;
    case BALSAEUCHRE_REPLY:
    case BALSAEUCHRE_ERROR:
    case BALSAEUCHRE_READ:
    case BALSAEUCHRE_WRITE:
    case BALSAEUCHRE_INFO:
        return RCVIDS;
    default:
        return CHIDS;
    }
}

/* Returns a call that could be valid. It rarely destroys a channel, so that some stay. */
static struct wire_ask any_call(int at) {
    static const uint8_t often[] = {BALSAEUCHRE_SEND, BALSAEUCHRE_RECEIVE, BALSAEUCHRE_REPLY, BALSAEUCHRE_PULSE};
    uint8_t kind = below(2) ? often[below(sizeof often)] : (uint8_t)(1 + below(17));
    if (kind == BALSAEUCHRE_SHUTDOWN && below(100)) kind = BALSAEUCHRE_STATE;
    if ((kind == BALSAEUCHRE_CHANNEL_DESTROY || kind == BALSAEUCHRE_CONNECT_DETACH) && below(4))
        kind = BALSAEUCHRE_CONNECT_ATTACH;
    struct wire_ask ask = {.op = OP_CALL, .call = ++threads[at].call, .number = number_of_kind(kind_of(kind))};
    ask.pid = below(4) ? shared->pids[below(NUMBERS)] : getpid();
    ask.states = below(2) ? _NTO_TIMEOUT_SEND | _NTO_TIMEOUT_RECEIVE | _NTO_TIMEOUT_REPLY : below(64);
    ask.time = (uint64_t)below(3000000);
    ask.flags = (uint32_t)below(16);
    ask.value = kind == BALSAEUCHRE_CHANNEL_CREATE ? (uint64_t)(below(8) | below(4) << 8) : (uint64_t)rand();
    ask.sent_len = (uint32_t)(below(200) ? below(LONGEST) : below(WIRE_MOST + 2));
    ask.room_len = (uint32_t)(below(200) ? below(LONGEST) : below(WIRE_MOST + 2));
    ask.request = balsaeuchre_request_of(kind, (uint8_t)rand(), (uint64_t)rand());
    ask.request.target = (uint8_t)(below(10) ? 1 + below(THREADS) : rand());
    ask.request.priority = (uint8_t)below(101);
    ask.request.pulse_code = (int8_t)rand();
    ask.request.code = below(100);
    ask.request.status = rand();
    ask.request.offset = (size_t)below(LONGEST);
    if (below(100) == 0) ask.op = (uint32_t)rand();
    return ask;
}

/* Notes the numbers in the answer of a box. */
static void take_answer(int at) {
    const struct wire_answer answer = threads[at].box->answer;
    if (answer.error) return;
    shared->results++;
    switch (threads[at].kind) {
    case BALSAEUCHRE_CHANNEL_CREATE:
        note(CHIDS, answer.result);
        break;
    case BALSAEUCHRE_CONNECT_ATTACH:
        note(COIDS, answer.result);
        break;
    case BALSAEUCHRE_RECEIVE:
        note(RCVIDS, answer.result);
        if (answer.result) note(SCOIDS, answer.info.scoid);
        break;
    default:
        break;
    }
}

/* Puts a request into the box of a thread, and changes the box while the daemon may read it. */
static void ask_by_box(int at) {
    struct wire_box *box = threads[at].box;
    const uint64_t once = 1;
    struct wire_ask ask = any_call(at);
    threads[at].kind = ask.request.kind;
    box->ask = ask;
    for (int count = below(64); count; count--)
        box->bytes[below(below(4) ? LONGEST : (int)sizeof box->bytes)] = (uint8_t)rand();
    atomic_store(&box->word, below(50) ? WIRE_OPEN : (uint32_t)below(5));
    atomic_fetch_add(&box->asked, below(100) ? 1 : 2);
    check(write(threads[at].bell, &once, sizeof once) > 0 || errno == EAGAIN);
    for (int turn = below(8) ? 0 : below(SPINS); turn; turn--) { /* request, answer and word change */
        ((volatile uint8_t *)&box->ask)[below(sizeof ask)] = (uint8_t)rand();
        if (below(20) == 0) box->answer.length = (uint32_t)rand();
        if (below(20) == 0) atomic_store(&box->word, (uint32_t)below(5));
    }
    if (below(10) == 0) atomic_store(&box->given_up, below(4) ? threads[at].call : (uint32_t)rand());
    if (below(100) == 0) atomic_store(&box->rings, (uint32_t)rand());
    shared->asks++;
}

static void step(int at) {
    char byte;
    if (threads[at].fd <= 0 || !threads[at].box || below(500) == 0) {
        open_thread(at);
        return;
    }
    bool is_closed = recv(threads[at].fd, &byte, 1, MSG_DONTWAIT) == 0;
    if (is_closed) {
        close_thread(at);
    } else if (atomic_load(&threads[at].box->word) == WIRE_ANSWERED) {
        take_answer(at);
        ask_by_box(at);
    } else if (below(50) == 0) {
        atomic_store(&threads[at].box->given_up, threads[at].call);
        ask_by_box(at);
    }
}

/* A program that joins, does its work, and ends or is killed. */
static void attack(void *seed) {
    struct wire_ask join = {.op = OP_PROCESS, .number = WIRE_VERSION};
    struct wire_answer answer;
    int files[2];
    srand((unsigned)(uintptr_t)seed);
    alarm(PATIENCE);
    program = connect_to();
    if (exchange(program, &join, NULL, &answer, files)) {
        usleep(10000);
        return;
    }
    note(SCOIDS, answer.result);
    shared->pids[below(NUMBERS)] = getpid();
    for (int left = 200 + below(20000); left; left--) {
        step(below(THREADS));
        if (below(20) == 0 && !ask_by_program()) return;
        if (below(5) == 0) sched_yield();
    }
}

int main(int count, char **words) {
    pid_t honest[HONEST + 1], hostile[HOSTILE];
    long before[HONEST] = {0}, rounds = 0;
    if (count != 3) return 2;
    shared = mmap(NULL, sizeof *shared, PROT_READ | PROT_WRITE, MAP_SHARED | MAP_ANONYMOUS, -1, 0);
    check(shared != MAP_FAILED);
    srand((unsigned)atoi(words[2]));
    honest[HONEST] = spawn(serve_honestly, NULL);
    for (int at = 0; at < HONEST; at++) honest[at] = spawn(ask_honestly, (void *)(intptr_t)at);
    for (int at = 0; at < HONEST; at++) {
        while (!shared->count[at]) usleep(1000);
    }
    time_t until = time(NULL) + atoi(words[1]);
    for (int at = 0; at < HOSTILE; at++) hostile[at] = spawn(attack, (void *)(uintptr_t)rand());
    for (; time(NULL) < until; rounds++) {
        int at = below(HOSTILE), status;
        usleep((useconds_t)below(500000));
        kill(hostile[at], SIGKILL);
        check(waitpid(hostile[at], &status, 0) == hostile[at]);
        check(!WIFEXITED(status) || WEXITSTATUS(status) == 0);
        hostile[at] = spawn(attack, (void *)(uintptr_t)rand());
        time_t start = time(NULL);
        for (int each = 0; each < HONEST; each++) { /* these continue meanwhile */
            while (shared->count[each] == before[each]) {
                check(waitpid(honest[each], NULL, WNOHANG) == 0 && time(NULL) <= start + PATIENCE);
                usleep(1000);
            }
            before[each] = shared->count[each];
        }
    }
    for (int at = 0; at < HOSTILE; at++) kill_child(hostile[at]);
    for (int at = 0; at <= HONEST; at++) check(waitpid(honest[at], NULL, WNOHANG) == 0);
    for (int at = 0; at <= HONEST; at++) kill_child(honest[at]);
    printf("%ld asks, %ld results, %ld programs, beside %ld honest messages\n", shared->asks, shared->results,
           HOSTILE + rounds, shared->count[0] + shared->count[1]);
    return 0;
}
