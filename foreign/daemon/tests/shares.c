/* shares: counts the requests that the daemon takes of a program with long requests, in a number of looks at all
 * boxes. The clock goes on only as it is read, so the counts don't depend on the machine. It includes daemon.c,
 * whose main then has another name. */
#define _GNU_SOURCE
#include <stdint.h>
#include <time.h>

enum { TICK = 100000, COST = 2 }; /* nanoseconds; the ticks that a long request takes */

static uint64_t clock_time = 1000000000;

/* Reads the clock, which goes on by TICK meanwhile. */
static int read_clock(struct timespec *time) {
    clock_time += TICK;
    *time = (struct timespec){(time_t)(clock_time / 1000000000u), (long)(clock_time % 1000000000u)};
    return 0;
}

#define clock_gettime(clock, time) read_clock(time)
#define main balsaeuchred_main
#include "../daemon.c"
#undef main

#include <sys/prctl.h>
#include <sys/wait.h>

enum { LOOKS = 400, MOST_PROGRAMS = 3, LONG = 2 * LONG_ASK, SHORT = 4 };

#define check(holds) \
    do { \
        if (!(holds)) { \
            fprintf(stderr, "%s:%d: %s (errno %d)\n", __FILE__, __LINE__, #holds, errno); \
            exit(1); \
        } \
    } while (0)

/* A program with one thread, and how many of its requests were taken. */
struct program {
    pid_t pid;
    struct client *thread;
    uint32_t length; /* of each request; 0: it makes none */
    int taken;
};

static struct program programs[MOST_PROGRAMS];

/* Joins by a socket whose other end stays open. */
static struct client *join_by_socket(pid_t pid, struct wire_ask ask) {
    static uint64_t came;
    int ends[2];
    struct client *c = new_client();
    check(c && socketpair(AF_UNIX, SOCK_SEQPACKET | SOCK_NONBLOCK, 0, ends) == 0);
    *c = no_client;
    c->is_used = true;
    c->fd = ends[0];
    c->peer = (struct ucred){pid, geteuid(), getegid()};
    c->came_as = ++came;
    check(watch(c->fd, EPOLLIN, c) && take_packet(c, (const uint8_t *)&ask, sizeof ask) && !c->answer.error);
    return c;
}

/* Lets a program join, which is a child that does nothing. */
static void start(struct program *p) {
    p->pid = fork();
    if (p->pid == 0) {
        prctl(PR_SET_PDEATHSIG, SIGKILL);
        for (;;) pause();
    }
    check(p->pid > 0);
    join_by_socket(p->pid, (struct wire_ask){.op = OP_PROCESS, .number = WIRE_VERSION});
    p->thread = join_by_socket(p->pid, (struct wire_ask){.op = OP_THREAD, .number = 1, .value = USUAL});
}

static void put_request(struct client *c, struct wire_ask ask) {
    c->box->ask = ask;
    atomic_store(&c->box->word, WIRE_OPEN);
    atomic_fetch_add(&c->box->asked, 1);
}

static bool is_taken(const struct client *c) { return c->asked == atomic_load(&c->box->asked); }

/* Makes a call that is answered at once. Returns its result. */
static int64_t call(struct program *p, int kind, int number, pid_t server) {
    struct wire_ask ask = {.op = OP_CALL, .number = number, .pid = server};
    ask.request = balsaeuchre_request_of(kind, 0, 0);
    put_request(p->thread, ask);
    look_at_boxes();
    check(is_taken(p->thread) && p->thread->box->word == WIRE_ANSWERED && !p->thread->box->answer.error);
    return p->thread->box->answer.result;
}

/* Asks again if the last request was taken: a send over no connection, which is answered at once. */
static void ask_again(struct program *p) {
    struct wire_ask ask = {.op = OP_CALL, .number = 999, .sent_len = p->length};
    ask.request = balsaeuchre_request_of(BALSAEUCHRE_SEND, 0, 0);
    if (!p->length || !is_taken(p->thread)) return;
    put_request(p->thread, ask);
}

/* Looks at the boxes for so many times, and counts. The daemon looks again soon if a request waits. */
static void look(int times) {
    for (int at = 0; at < MOST_PROGRAMS; at++) programs[at].taken = 0;
    for (; times; times--) {
        bool waits = false;
        for (int at = 0; at < MOST_PROGRAMS; at++) ask_again(&programs[at]);
        look_at_boxes();
        for (struct program *p = programs; p < programs + MOST_PROGRAMS; p++) {
            if (!p->length) continue;
            p->taken += is_taken(p->thread);
            waits |= !is_taken(p->thread);
        }
        check(has_later == waits);
    }
}

/* Gives each program its requests' length, after a minute without requests. */
static void begin(uint32_t first, uint32_t second, uint32_t third) {
    const uint32_t lengths[MOST_PROGRAMS] = {first, second, third};
    for (int at = 0; at < MOST_PROGRAMS; at++) programs[at].length = 0;
    clock_time += 60000000000;
    look(1);
    for (int at = 0; at < MOST_PROGRAMS; at++) programs[at].length = lengths[at];
}

/* If no other program asks, no program waits. */
static void alone(void) {
    begin(LONG, 0, 0);
    look(LOOKS);
    check(programs[0].taken == LOOKS);
}

/* Another program asks: it never waits. The long requests take BURST, and then one part in SHARE of the time. When
 * the other program has asked nothing for ACTIVE, they don't wait any more. */
static void beside_others(void) {
    begin(LONG, SHORT, 0);
    uint64_t start = clock_time;
    look(LOOKS);
    uint64_t most = BURST + (clock_time - start) / SHARE, taken = (uint64_t)programs[0].taken * COST * TICK;
    check(programs[1].taken == LOOKS && taken <= most + COST * TICK && taken + 2 * COST * TICK >= most);
    programs[1].length = 0;
    look(ACTIVE / TICK);
    look(LOOKS);
    check(programs[0].taken == LOOKS);
}

/* Two programs that are both over their share don't wait for each other, but for a third one. */
static void both_over_share(void) {
    begin(LONG, LONG, 0);
    look(LOOKS / 10);
    look(LOOKS);
    check(programs[0].taken == LOOKS && programs[1].taken == LOOKS);
    programs[2].length = SHORT;
    look(LOOKS);
    check(programs[2].taken == LOOKS && programs[0].taken < LOOKS / 4 && programs[1].taken < LOOKS / 4);
}

/* Programs that are connected don't count as others, whichever of them is the client. */
static void partners(void) {
    begin(0, 0, 0);
    int chid = (int)call(&programs[0], BALSAEUCHRE_CHANNEL_CREATE, 0, 0);
    call(&programs[1], BALSAEUCHRE_CONNECT_ATTACH, chid, programs[0].pid);
    begin(LONG, SHORT, 0);
    look(LOOKS);
    check(programs[0].taken == LOOKS);
    begin(SHORT, LONG, 0);
    look(LOOKS);
    check(programs[1].taken == LOOKS);
    begin(LONG, 0, SHORT);
    look(LOOKS);
    check(programs[0].taken < LOOKS / 4 && programs[2].taken == LOOKS);
}

int main(void) {
    events = epoll_create1(EPOLL_CLOEXEC);
    check(fill_limits() && !open_all());
    for (int at = 0; at < MOST_PROGRAMS; at++) start(&programs[at]);
    alone();
    beside_others();
    both_over_share();
    partners();
    for (int at = 0; at < MOST_PROGRAMS; at++) kill(programs[at].pid, SIGKILL);
    while (wait(NULL) > 0) continue;
    return 0;
}
