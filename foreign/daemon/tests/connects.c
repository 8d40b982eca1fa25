/* connects [NAME..]: tests which daemon a program uses, the messages about a daemon that it can't use, how
 * long calls wait, and what a wait costs. It needs a daemon of 12 processes with 4 threads each. again and
 * not_again start daemons of their own, from the program that BALSAEUCHRE_DAEMON names. */
#define _GNU_SOURCE
#include "tests.h"

#include <fcntl.h>
#include <pwd.h>
#include <sys/mman.h>
#include <sys/socket.h>
#include <sys/stat.h>
#include <sys/syscall.h>
#include <sys/un.h>
#include <time.h>

enum { MOST = 1 << 20, TURNS = 40, NOBODY = 65534 };

static double seconds(clockid_t clock) {
    struct timespec t;
    clock_gettime(clock, &t);
    return (double)t.tv_sec + (double)t.tv_nsec / 1e9;
}

/* Turns standard error into a pipe, from whose returned end said() reads. */
static int catch_errors(void) {
    int ends[2];
    check(pipe2(ends, O_CLOEXEC) == 0 && fcntl(ends[0], F_SETFL, O_NONBLOCK) == 0);
    check(dup2(ends[1], STDERR_FILENO) == STDERR_FILENO && close(ends[1]) == 0);
    return ends[0];
}

static const char *said(int errors) {
    static char text[1000];
    ssize_t length = read(errors, text, sizeof text - 1);
    text[length > 0 ? length : 0] = 0;
    return text;
}

/* ---- time */

/* If the daemon has nothing else to do, a timeout ends at about the same time as a sleep of the host. */
static void timeouts(void) {
    static const int all[] = {50, 200};
    int chid = ChannelCreate(0);
    for (size_t at = 0; at < sizeof all / sizeof *all; at++) {
        double best = 1e9, host = 1e9;
        for (int turn = 0; turn < TURNS && (turn < 3 || best > 1.15 * host); turn++) {
            double start = seconds(CLOCK_MONOTONIC);
            nanosleep(&(struct timespec){0, all[at] * 1000000}, NULL);
            double slept = seconds(CLOCK_MONOTONIC) - start;
            if (slept < host) host = slept;
            set_timeout(all[at]);
            start = seconds(CLOCK_MONOTONIC);
            fails(MsgReceive(chid, NULL, 0, NULL), ETIMEDOUT);
            double taken = seconds(CLOCK_MONOTONIC) - start;
            if (taken < best) best = taken;
        }
        if (best > 1.15 * host) fprintf(stderr, "%d ms: %.1f ms, a sleep %.1f ms\n", all[at], best * 1e3, host * 1e3);
        check(best <= 1.15 * host && best >= 0.0009 * all[at]);
    }
    check(ChannelDestroy(chid) == 0);
}

static pid_t pid_of_daemon(void) {
    struct sockaddr_un address = {.sun_family = AF_UNIX};
    struct ucred daemon;
    socklen_t length = sizeof daemon;
    int fd = socket(AF_UNIX, SOCK_SEQPACKET, 0);
    strncpy(address.sun_path, getenv("BALSAEUCHRE_SYSTEM"), sizeof address.sun_path - 1);
    check(connect(fd, (struct sockaddr *)&address, sizeof address) == 0);
    check(getsockopt(fd, SOL_SOCKET, SO_PEERCRED, &daemon, &length) == 0 && daemon.pid > 0 && close(fd) == 0);
    return daemon.pid;
}

/* The number of times that a thread has given up its processor by itself. */
static long switches(pid_t tid) {
    char path[64], line[200];
    long count = -1;
    snprintf(path, sizeof path, "/proc/self/task/%d/status", (int)tid);
    FILE *file = fopen(path, "re");
    check(file);
    while (fgets(line, sizeof line, file)) sscanf(line, "voluntary_ctxt_switches: %ld", &count);
    fclose(file);
    check(count >= 0);
    return count;
}

static volatile pid_t waiter;

static void *wait_on(void *chid) {
    char room[64];
    waiter = (pid_t)syscall(SYS_gettid);
    MsgReceive((int)(intptr_t)chid, room, sizeof room, NULL);
    return NULL;
}

/* A thread that waits for 5 seconds sleeps at most twice. Neither the thread nor the daemon
 * uses a processor meanwhile. */
static void idle(void) {
    pthread_t thread;
    clockid_t clock;
    int chid = ChannelCreate(0);
    check(chid > 0 && clock_getcpuclockid(pid_of_daemon(), &clock) == 0);
    check(pthread_create(&thread, NULL, wait_on, (void *)(intptr_t)chid) == 0);
    while (!waiter) usleep(1000);
    usleep(300000);
    long before = switches(waiter);
    double used = seconds(clock), own = seconds(CLOCK_PROCESS_CPUTIME_ID);
    sleep(5);
    long after = switches(waiter);
    used = seconds(clock) - used;
    own = seconds(CLOCK_PROCESS_CPUTIME_ID) - own;
    if (after - before > 2) fprintf(stderr, "%ld switches\n", after - before);
    if (used > 0.05 || own > 0.05) fprintf(stderr, "%.3f s of the daemon, %.3f s of the program\n", used, own);
    check(after - before <= 2 && used < 0.05 && own < 0.05);
    check(ChannelDestroy(chid) == 0 && pthread_join(thread, NULL) == 0);
}

/* ---- whose daemon it is */

struct shared {
    volatile int came;
};
static struct shared *shared;

/* Listens as another user, and counts the programs that send anything. Answers none of them. */
static void listen_as_nobody(void *path) {
    struct sockaddr_un address = {.sun_family = AF_UNIX};
    char byte;
    strcpy(address.sun_path, path);
    check(setgid(NOBODY) == 0 && setuid(NOBODY) == 0);
    int fd = socket(AF_UNIX, SOCK_SEQPACKET, 0);
    check(bind(fd, (struct sockaddr *)&address, sizeof address) == 0 && listen(fd, 5) == 0);
    for (;;) {
        int client = accept(fd, NULL, NULL);
        check(client != -1);
        if (recv(client, &byte, 1, 0) > 0) shared->came++;
        close(client);
    }
}

static void ask_nobody(void *user) {
    char wanted[200];
    int errors = catch_errors();
    if (user) check(setenv("BALSAEUCHRE_SYSTEM_USER", user, 1) == 0);
    fails(ChannelCreate(0), user ? ESHUTDOWN : EPERM);
    fails(ChannelCreate(0), user ? ESHUTDOWN : EPERM);
    snprintf(wanted, sizeof wanted,
             "balsaeuchre: the balsaeuchred at %s is of user %d: expected root's (0) or "
             "this user's (%d). BALSAEUCHRE_SYSTEM_USER=%d takes it\n",
             getenv("BALSAEUCHRE_SYSTEM"), NOBODY, geteuid(), NOBODY);
    check(strcmp(said(errors), user ? "" : wanted) == 0);
}

/* A program sends nothing to another user's daemon, unless the environment names that
 * user. Only root can try this. */
static void owners(void) {
    char folder[] = "/tmp/balsaeuchre.XXXXXX", path[100];
    struct stat state;
    const struct passwd *entry = getpwuid(NOBODY);
    if (geteuid() != 0) return;
    shared = mmap(NULL, sizeof *shared, PROT_READ | PROT_WRITE, MAP_SHARED | MAP_ANONYMOUS, -1, 0);
    check(mkdtemp(folder) && chmod(folder, 0777) == 0);
    snprintf(path, sizeof path, "%s/socket", folder);
    pid_t other = spawn(listen_as_nobody, path);
    while (stat(path, &state)) usleep(1000);
    usleep(100000);
    check(setenv("BALSAEUCHRE_SYSTEM", path, 1) == 0);
    expect_end(spawn(ask_nobody, NULL));
    check(shared->came == 0);
    expect_end(spawn(ask_nobody, "65534"));
    check(shared->came == 2);
    if (entry) expect_end(spawn(ask_nobody, entry->pw_name));
    check(shared->came == (entry ? 4 : 2));
    kill_child(other);
    check(unlink(path) == 0 && rmdir(folder) == 0);
}

/* ---- where it is */

static void *attach(void *chid) {
    int coid = ConnectAttach(0, 0, (int)(intptr_t)chid, _NTO_SIDE_CHANNEL, 0);
    return (void *)(intptr_t)(coid == -1 ? errno : 0);
}

static void attach_in_thread(int chid) {
    pthread_t thread;
    void *error;
    check(pthread_create(&thread, NULL, attach, (void *)(intptr_t)chid) == 0);
    check(pthread_join(thread, &error) == 0 && !error);
}

static void find_named(void *unused) {
    (void)unused;
    check(name_open("nobody", 0) == -1 && errno == ENOENT); /* the daemon's answer */
}

/* A program uses the daemon that its first call found, in each folder and after a change of the
 * environment. */
static void places(void) {
    char path[200];
    strcpy(path, getenv("BALSAEUCHRE_SYSTEM"));
    char *name = strrchr(path, '/');
    *name++ = 0;
    check(chdir(path) == 0 && setenv("BALSAEUCHRE_SYSTEM", name, 1) == 0);
    int chid = ChannelCreate(0);
    check(chid > 0 && chdir("/") == 0);
    attach_in_thread(chid);
    expect_end(spawn(find_named, NULL));
    check(clearenv() == 0);
    attach_in_thread(chid);
    check(ChannelDestroy(chid) == 0);
}

/* ---- no room */

static void *serve_one(void *chid) {
    static char sent[MOST + 1];
    struct _msg_info info;
    rcvid_t rcvid = MsgReceive((int)(intptr_t)chid, sent, sizeof sent, &info);
    check(rcvid > 0 && info.dstmsglen == MOST);
    fails(MsgWrite(rcvid, sent, MOST + 1, 0), EMSGSIZE);
    fails(MsgReply(rcvid, 0, sent, MOST + 1), EMSGSIZE);
    memset(sent, 'x', MOST);
    check(MsgReply(rcvid, 5, sent, MOST) == 0);
    return NULL;
}

/* A message, a reply, a Write or a reply buffer of more than 1 MiB is refused, and nothing is truncated. A
 * receive buffer may be longer. */
static void longest(void) {
    static char back[MOST + 1];
    pthread_t thread;
    int chid = ChannelCreate(0), coid = ConnectAttach(0, 0, chid, _NTO_SIDE_CHANNEL, 0);
    check(pthread_create(&thread, NULL, serve_one, (void *)(intptr_t)chid) == 0);
    fails(MsgSend(coid, "r", 1, back, MOST + 1), EMSGSIZE);
    fails(MsgSend(coid, back, MOST + 1, back, 1), EMSGSIZE);
    check(MsgSend(coid, "r", 1, back, MOST) == 5 && back[0] == 'x' && back[MOST - 1] == 'x' && !back[MOST]);
    check(pthread_join(thread, NULL) == 0 && ConnectDetach(coid) == 0 && ChannelDestroy(chid) == 0);
}

static void stay(void *line) {
    check(ChannelCreate(0) > 0 && write(*(int *)line, "x", 1) == 1);
    pause();
}

static void find_no_place(void *unused) {
    int errors = catch_errors();
    (void)unused;
    fails(ChannelCreate(0), EAGAIN);
    fails(ChannelCreate(0), EAGAIN);
    const char *text = said(errors);
    check(strstr(text, "has places for 12 programs, and all are taken: its option --processes gives more\n"));
    check(strchr(text, '\n') == strrchr(text, '\n'));
}

/* A program without a place reports this once, with the option that gives more. For a daemon of 12
 * processes. */
static void no_place(void) {
    pid_t all[12];
    int line[2];
    char byte;
    check(pipe(line) == 0);
    for (int at = 0; at < 12; at++) {
        all[at] = spawn(stay, &line[1]);
        check(read(line[0], &byte, 1) == 1);
    }
    expect_end(spawn(find_no_place, NULL));
    for (int at = 0; at < 12; at++) kill_child(all[at]);
}

static void *wait_as_last(void *chid) {
    char room[64];
    return (void *)(intptr_t)(MsgReceive((int)(intptr_t)chid, room, sizeof room, NULL) == -1 ? errno : 0);
}

/* A thread without a place, in the same way. For a daemon of at most 60 threads for each process. */
static void no_thread(void) {
    pthread_t all[61];
    int errors = catch_errors(), chid = ChannelCreate(0), count = 0;
    const char *text = "";
    for (; count < 61 && !*text; count++) {
        check(pthread_create(&all[count], NULL, wait_as_last, (void *)(intptr_t)chid) == 0);
        for (int turn = 0; turn < 20 && !*text; turn++) {
            usleep(100000);
            text = said(errors);
        }
    }
    check(strstr(text, "a thread waits for a place: this program has "));
    check(strstr(text, "whose option --threads gives more\n"));
    check(ChannelDestroy(chid) == 0);
    for (int at = 0; at < count; at++) check(pthread_join(all[at], NULL) == 0);
    check(!*said(errors));
}

/* ---- files */

static void *hold_socket(void *step) {
    int chid = ChannelCreate(0);
    __sync_fetch_and_add((int *)step, 1);
    while (*(volatile int *)step < 2) usleep(1000);
    check(ChannelDestroy(chid) == 0);
    return NULL;
}

/* A thread's socket has the number of a standard file that was closed. A forked
 * child doesn't keep the socket. */
static void closed_files(void) {
    static volatile int step;
    pthread_t thread;
    int chid = ChannelCreate(0);
    check(chid > 0 && close(STDIN_FILENO) == 0);
    check(pthread_create(&thread, NULL, hold_socket, (void *)&step) == 0);
    while (!step) usleep(1000);
    check(fcntl(STDIN_FILENO, F_GETFD) != -1);
    pid_t child = fork();
    if (child == 0) _exit(fcntl(STDIN_FILENO, F_GETFD) == -1 ? 0 : 1);
    expect_end(child);
    step = 2;
    check(pthread_join(thread, NULL) == 0 && ChannelDestroy(chid) == 0);
}

/* ---- events and channels */

static void send_and_detach(void *line) {
    struct sigevent event;
    int chid = ChannelCreate(0), own = ConnectAttach(0, 0, chid, _NTO_SIDE_CHANNEL, 0), coid = open_name("stranger");
    SIGEV_PULSE_INIT(&event, own, 10, 1, 7);
    check(MsgSend(coid, &event, sizeof event, NULL, 0) == 0 && ConnectDetach(coid) == 0);
    check(write(*(int *)line, "x", 1) == 1);
    set_timeout(2000);
    struct _pulse pulse;
    fails(MsgReceivePulse(chid, &pulse, sizeof pulse, NULL), ETIMEDOUT);
}

/* A program's event isn't delivered after the program has detached, because it is no longer a client. */
static void strangers(void) {
    struct sigevent event;
    int line[2];
    char byte;
    name_attach_t *name = name_attach(NULL, "stranger", 0);
    check(name && pipe(line) == 0);
    pid_t child = spawn(send_and_detach, &line[1]);
    rcvid_t rcvid = receive_answering_opens(name->chid, &event, sizeof event, NULL);
    check(rcvid > 0 && MsgReply(rcvid, 0, NULL, 0) == 0 && read(line[0], &byte, 1) == 1);
    fails(MsgDeliverEvent(rcvid, &event), ESRCH);
    expect_end(child);
    check(name_detach(name, 0) == 0);
}

/* Channels that ask for pulses about ends free everything when they are destroyed. */
static void told_channels(void) {
    for (int turn = 0; turn < 1100; turn++) {
        int chid = ChannelCreate(_NTO_CHF_COID_DISCONNECT | _NTO_CHF_THREAD_DEATH);
        check(chid > 0 && ChannelDestroy(chid) == 0);
    }
}

/* ---- a daemon that is started again */

static const char *own_path;

static pid_t start_daemon(void) {
    const char *program = getenv("BALSAEUCHRE_DAEMON");
    pid_t child = fork();
    if (child == 0) {
        execl(program, program, own_path, (char *)NULL);
        _exit(127);
    }
    struct sockaddr_un address = {.sun_family = AF_UNIX};
    strcpy(address.sun_path, own_path);
    for (bool listens = false; !listens; usleep(1000)) {
        int fd = socket(AF_UNIX, SOCK_SEQPACKET, 0);
        listens = connect(fd, (struct sockaddr *)&address, sizeof address) == 0;
        close(fd);
        check(listens || waitpid(child, NULL, WNOHANG) == 0);
    }
    return child;
}

static volatile bool is_back;
static volatile int waited; /* the error of the call that was open when the daemon ended */
static volatile double ended_at;

static void *wait_through_end(void *chid) {
    char room[64];
    int error = MsgReceive((int)(intptr_t)chid, room, sizeof room, NULL) == -1 ? errno : 0;
    ended_at = seconds(CLOCK_MONOTONIC);
    waited = error;
    while (!is_back) usleep(1000);
    int wanted = getenv("BALSAEUCHRE_RECONNECT") ? ESRCH : ESHUTDOWN;
    fails(MsgReceive((int)(intptr_t)chid, room, sizeof room, NULL), wanted);
    return NULL;
}

/* Kills the daemon, and starts it again. A thread that has waited for some time learns it within a second. */
static pid_t end_and_start(pid_t old, int chid) {
    pthread_t thread;
    check(pthread_create(&thread, NULL, wait_through_end, (void *)(intptr_t)chid) == 0);
    usleep(500000);
    double start = seconds(CLOCK_MONOTONIC);
    kill_child(old);
    while (!waited) usleep(1000);
    if (ended_at - start >= 1) fprintf(stderr, "%.3f s\n", ended_at - start);
    check(waited == ESHUTDOWN && ended_at > start && ended_at - start < 1);
    fails(ChannelCreate(0), ESHUTDOWN);
    pid_t daemon = start_daemon();
    is_back = true;
    check(pthread_join(thread, NULL) == 0);
    return daemon;
}

static void *reply_to_urgent(void *chid) {
    struct _msg_info info;
    rcvid_t rcvid = MsgReceive((int)(intptr_t)chid, NULL, 0, &info);
    check(rcvid > 0 && info.priority == 21 && MsgReply(rcvid, 0, NULL, 0) == 0);
    return NULL;
}

static void use_again(void *daemon) {
    pthread_t server;
    const struct sched_param param = {.sched_priority = 21};
    struct sched_param now;
    struct _pulse pulse;
    int chid = ChannelCreate(0), coid = ConnectAttach(0, 0, chid, _NTO_SIDE_CHANNEL, 0);
    check(chid > 0 && coid != -1 && SchedSet(0, 0, SCHED_RR, &param) == 0);
    pid_t next = end_and_start((pid_t)(intptr_t)daemon, chid);
    if (!getenv("BALSAEUCHRE_RECONNECT")) {
        fails(ChannelCreate(0), ESHUTDOWN);
        kill_child(next);
        return;
    }
    int other = ChannelCreate(0), own = ConnectAttach(0, 0, other, _NTO_SIDE_CHANNEL, 0);
    check(other > 0 && own != -1 && other != chid && own != coid);
    fails(MsgSend(coid, NULL, 0, NULL, 0), EBADF);
    fails(MsgSendPulse(coid, 10, 1, 1), EBADF);
    fails(MsgReceivePulse(chid, &pulse, sizeof pulse, NULL), ESRCH);
    fails(ChannelDestroy(chid), EINVAL);
    check(MsgSendPulse(own, -1, 3, 4) == 0 && MsgReceivePulse(other, &pulse, sizeof pulse, NULL) == 0);
    check(pulse.code == 3 && pulse.value.sival_int == 4);
    check(SchedGet(0, 0, &now) != -1 && now.sched_priority == 21);
    check(pthread_create(&server, NULL, reply_to_urgent, (void *)(intptr_t)other) == 0);
    check(MsgSend(own, NULL, 0, NULL, 0) == 0 && pthread_join(server, NULL) == 0);
    attach_in_thread(other);
    kill_child(next);
}

static void start_again(bool reconnects) {
    char folder[] = "/tmp/balsaeuchre.XXXXXX", path[100];
    if (!getenv("BALSAEUCHRE_DAEMON")) return;
    check(mkdtemp(folder));
    snprintf(path, sizeof path, "%s/socket", folder);
    own_path = path;
    check(setenv("BALSAEUCHRE_SYSTEM", path, 1) == 0);
    check(reconnects ? setenv("BALSAEUCHRE_RECONNECT", "1", 1) == 0 : unsetenv("BALSAEUCHRE_RECONNECT") == 0);
    use_again((void *)(intptr_t)start_daemon());
    unlink(path);
    strcat(path, ".lock");
    check(unlink(path) == 0 && rmdir(folder) == 0);
}

/* The daemon is killed and started again. A program with BALSAEUCHRE_RECONNECT=1 uses the next daemon, and a
 * program without it doesn't. */
static void again(void) { start_again(true); }
static void not_again(void) { start_again(false); }

#define TEST(name) \
    { #name, name }
static const struct {
    const char *name;
    void (*run)(void);
} tests[] = {
    TEST(timeouts),  TEST(idle),         TEST(owners),    TEST(places),        TEST(longest), TEST(no_place),
    TEST(no_thread), TEST(closed_files), TEST(strangers), TEST(told_channels), TEST(again),   TEST(not_again),
};

static void run(void *at) { tests[(intptr_t)at].run(); }

int main(int count, char **words) {
    setvbuf(stdout, NULL, _IOLBF, 0);
    for (size_t at = 0; at < sizeof tests / sizeof *tests; at++) {
        bool asked = count == 1;
        for (int word = 1; word < count; word++) asked |= strcmp(words[word], tests[at].name) == 0;
        if (!asked) continue;
        expect_end(spawn(run, (void *)at));
        printf("%s\n", tests[at].name);
    }
    return 0;
}
