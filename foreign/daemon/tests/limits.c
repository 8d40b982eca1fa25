/* limits [NAME..]: the limits of a process, clients that are stopped, long messages, and users that may not
 * connect. It needs a daemon of 12 processes with 4 threads each, or with SEATS threads for this program. */
#define _GNU_SOURCE
#include "tests.h"

#include <fcntl.h>
#include <sys/stat.h>
#include <time.h>

enum { CHANNELS = 16, CONNECTIONS = 256, THREADS = 4, MOST = 1 << 20 };

static void channels(void) {
    int chids[CHANNELS];
    for (int turn = 0; turn < 2; turn++) {
        for (int at = 0; at < CHANNELS; at++) check((chids[at] = ChannelCreate(0)) > 0);
        fails(ChannelCreate(0), EAGAIN);
        for (int at = 0; at < CHANNELS; at++) check(ChannelDestroy(chids[at]) == 0);
    }
}

static void connections(void) {
    static int coids[CONNECTIONS];
    int chid = ChannelCreate(0);
    for (int turn = 0; turn < 2; turn++) {
        for (int at = 0; at < CONNECTIONS; at++) check((coids[at] = ConnectAttach(0, 0, chid, 0, 0)) > 0);
        fails(ConnectAttach(0, 0, chid, 0, 0), EAGAIN);
        for (int at = 0; at < CONNECTIONS; at++) check(ConnectDetach(coids[at]) == 0);
    }
    fails(ConnectAttach(0, getppid(), chid, 0, 0), ESRCH);
    check(ChannelDestroy(chid) == 0);
}

/* Pulses over connections that never existed use nothing that others need. */
static void pulses(void) {
    struct _pulse pulse;
    int chid = ChannelCreate(0), coid = ConnectAttach(0, 0, chid, 0, 0);
    for (int at = 0; at < 70000; at++) fails(MsgSendPulse(1000, 10, 1, at), EBADF);
    for (int at = 0; at < 1024; at++) check(MsgSendPulse(coid, 10, 1, at) == 0);
    fails(MsgSendPulse(coid, 10, 1, 0), EAGAIN);
    check(MsgReceivePulse(chid, &pulse, sizeof pulse, NULL) == 0 && pulse.value.sival_int == 0);
    check(ConnectDetach(coid) == 0 && ChannelDestroy(chid) == 0);
}

static void echo(void *unused);
static void live(void *unused);

static void *send_into_nothing(void *unused) {
    static char sent[MOST];
    (void)unused;
    for (;;) MsgSend(1000, sent, sizeof sent, NULL, 0);
    return NULL;
}

static void flood(void *unused) {
    pthread_t all[THREADS];
    (void)unused;
    for (int at = 0; at < THREADS; at++) check(pthread_create(&all[at], NULL, send_into_nothing, NULL) == 0);
    pause();
}

/* While a program only makes the longest calls, other programs come, send and go. */
static void busy(void) {
    struct timespec start, end;
    pid_t server = spawn(echo, NULL), flooding = spawn(flood, NULL);
    usleep(200000);
    clock_gettime(CLOCK_MONOTONIC, &start);
    for (int turn = 0; turn < 10; turn++) expect_end(spawn(live, NULL));
    clock_gettime(CLOCK_MONOTONIC, &end);
    check(end.tv_sec - start.tv_sec < PATIENCE);
    kill_child(flooding);
    kill_child(server);
}

static volatile int refused;

static void *receive(void *chid) {
    char room[8];
    int error = MsgReceive((int)(intptr_t)chid, room, sizeof room, NULL) == -1 ? errno : 0;
    if (error == EAGAIN) __sync_fetch_and_add(&refused, 1);
    return (void *)(intptr_t)error;
}

static int seats(void) {
    const char *count = getenv("SEATS");
    return count ? atoi(count) : THREADS;
}

static void threads(void) {
    pthread_t all[64];
    int chid = ChannelCreate(0), count = seats();
    for (int at = 0; at < count; at++) check(pthread_create(&all[at], NULL, receive, (void *)(intptr_t)chid) == 0);
    while (!refused) usleep(1000); /* all seats are taken, and one thread has failed with EAGAIN */
    check(ChannelDestroy(chid) == 0);
    for (int at = 0; at < count; at++) {
        void *error;
        check(pthread_join(all[at], &error) == 0);
        check((intptr_t)error == ESRCH || (intptr_t)error == EAGAIN);
    }
    check(refused == 1); /* the main thread has the last seat */
}

static volatile int there;

static void *come_and_receive(void *chid) {
    int own = ChannelCreate(0);
    check(own > 0 && ChannelDestroy(own) == 0);
    __sync_fetch_and_add(&there, 1);
    return receive(chid);
}

/* A thread that comes while all seats are taken waits until a seat is free. */
static void late(void) {
    pthread_t all[64];
    int chid = ChannelCreate(0), count = seats();
    for (int at = 0; at < count; at++) {
        while (there < at) usleep(1000); /* a program has room for few channels at a time */
        check(pthread_create(&all[at], NULL, come_and_receive, (void *)(intptr_t)chid) == 0);
    }
    usleep(50000);
    check(there == count - 1 && ChannelDestroy(chid) == 0);
    for (int at = 0; at < count; at++) check(pthread_join(all[at], NULL) == 0);
    check(there == count && refused == 0);
}

static void create_and_wait(void *line) {
    int error = ChannelCreate(0) == -1 ? errno : 0;
    check(write(*(int *)line, &error, sizeof error) == sizeof error);
    pause();
}

static void processes(void) {
    int line[2], error = 0, count = 0;
    pid_t all[40];
    check(pipe(line) == 0 && ChannelCreate(0) > 0);
    for (; !error; count++) {
        all[count] = spawn(create_and_wait, &line[1]);
        check(count < 39 && read(line[0], &error, sizeof error) == sizeof error);
    }
    check(count == 12 && error == EAGAIN); /* this program and eleven others have a place */
    for (int at = 0; at < count; at++) kill_child(all[at]);
}

/* Changes each byte, so that the old content of a box isn't a correct reply. */
static void invert(char *bytes, size_t length) {
    for (size_t at = 0; at < length; at++) bytes[at] = (char)~bytes[at];
}

static void echo(void *unused) {
    static char room[MOST];
    struct _msg_info info;
    (void)unused;
    name_attach_t *name = name_attach(NULL, "echo", 0);
    for (;;) {
        rcvid_t rcvid = receive_answering_opens(name->chid, room, sizeof room, &info);
        if (rcvid <= 0) continue;
        invert(room, (size_t)info.msglen);
        MsgReply(rcvid, info.msglen, room, (size_t)info.msglen);
    }
}

/* Messages of various lengths up to 1 MiB, in two parts. A longer message is refused. */
static void lengths(void) {
    static char sent[MOST + 1], back[MOST];
    const size_t all[] = {0, 1, 1023, 1024, 1025, 32767, 32768, 32769, 65536, 200000, MOST - 1, MOST};
    pid_t server = spawn(echo, NULL);
    int coid = open_name("echo");
    for (size_t at = 0; at < MOST; at++) sent[at] = (char)(at % 251 + 1);
    for (size_t turn = 0; turn < sizeof all / sizeof *all; turn++) {
        iov_t parts[2] = {{sent, all[turn] / 3}, {sent + all[turn] / 3, all[turn] - all[turn] / 3}};
        iov_t room[2] = {{back, all[turn] / 2}, {back + all[turn] / 2, MOST - all[turn] / 2}};
        memset(back, 'x', sizeof back);
        check(MsgSendv(coid, parts, 2, room, 2) == (long)all[turn]);
        invert(back, all[turn]);
        check(memcmp(sent, back, all[turn]) == 0);
        for (size_t at = all[turn]; at < MOST; at++) check(back[at] == 'x');
    }
    fails(MsgSend(coid, sent, MOST + 1, NULL, 0), EMSGSIZE);
    kill_child(server);
}

static void write_around(void *unused) {
    char room[64];
    (void)unused;
    name_attach_t *name = name_attach(NULL, "writer", 0);
    rcvid_t rcvid = receive_answering_opens(name->chid, room, sizeof room, NULL);
    check(MsgWrite(rcvid, "WW", 2, 6) == 2 && MsgWrite(rcvid, "WWWW", 4, 14) == 2);
    check(MsgReply(rcvid, 3, "R", 1) == 0);
}

/* A reply buffer is changed only where it was written. */
static void writes(void) {
    char back[] = "................";
    pid_t server = spawn(write_around, NULL);
    int coid = open_name("writer");
    check(MsgSend(coid, "message", 7, back, 16) == 3 && strcmp(back, "R.....WW......WW") == 0);
    expect_end(server);
}

static void send_long(void *unused) {
    static char sent[MOST], back[MOST];
    (void)unused;
    int coid = open_name("slow");
    for (;;) MsgSend(coid, sent, sizeof sent, back, sizeof back);
}

/* A client that is stopped while it has a reply of 1 MiB delays no other program. */
static void stopped(void) {
    static char room[MOST];
    pid_t server = spawn(echo, NULL), client;
    name_attach_t *name = name_attach(NULL, "slow", 0);
    int coid = open_name("echo");
    struct _msg_info info;
    client = spawn(send_long, NULL);
    for (int turn = 0; turn < 3; turn++) {
        rcvid_t rcvid = receive_answering_opens(name->chid, room, sizeof room, &info);
        check(rcvid > 0 && info.srcmsglen == MOST && kill(client, SIGSTOP) == 0);
        check(waitpid(client, NULL, WUNTRACED) == client);
        check(MsgReply(rcvid, 0, room, MOST) == 0);
        for (int at = 0; at < 200; at++) check(MsgSend(coid, "hello", 6, room, sizeof room) == 6);
        check(kill(client, SIGCONT) == 0);
    }
    check(kill(client, SIGSTOP) == 0 && waitpid(client, NULL, WUNTRACED) == client);
    kill_child(client);
    kill_child(server);
    check(name_detach(name, 0) == 0);
}

static void as_nobody(void *unused) {
    (void)unused;
    check(setgid(65534) == 0 && setuid(65534) == 0 && chdir("/") == 0);
    check(ChannelCreate(0) == -1);
}

/* Without a daemon each call fails. Standard error says once where the program looked for it. */
static void without_daemon(void *unused) {
    int told[2];
    char text[100] = "";
    (void)unused;
    check(pipe(told) == 0 && dup2(told[1], STDERR_FILENO) != -1 && setenv("BALSAEUCHRE_SYSTEM", "/nowhere", 1) == 0);
    fails(ChannelCreate(0), ESHUTDOWN);
    fails(name_open("server", 0), ESHUTDOWN);
    check(name_attach(NULL, "server", 0) == NULL && errno == ESHUTDOWN);
    check(read(told[0], text, sizeof text - 1) > 0);
    check(strcmp(text, "balsaeuchre: no balsaeuchred at /nowhere: No such file or directory\n") == 0);
}

static void absent(void) { expect_end(spawn(without_daemon, NULL)); }

/* Another user may not connect, even if the mode of the socket's file allows it. Only root can try this. */
static void users(void) {
    const char *path = getenv("BALSAEUCHRE_SYSTEM");
    struct stat state;
    if (geteuid() != 0) return;
    check(stat(path, &state) == 0 && (state.st_mode & 0777) == 0600);
    expect_end(spawn(as_nobody, NULL));
    check(chmod(path, 0666) == 0);
    expect_end(spawn(as_nobody, NULL));
    check(chmod(path, 0600) == 0 && ChannelCreate(0) > 0);
}

static void live(void *unused) {
    char back[8];
    (void)unused;
    int chid = ChannelCreate(0), coid = ConnectAttach(0, 0, chid, 0, 0), other = open_name("echo");
    check(coid > 0 && MsgSend(other, "hello", 6, back, sizeof back) == 6);
}

/* Processes run one after another, and each gets a place. */
static void lives(void) {
    const char *rounds = getenv("LIVES");
    pid_t server = spawn(echo, NULL);
    for (int turn = rounds ? atoi(rounds) : 200; turn; turn--) expect_end(spawn(live, NULL));
    kill_child(server);
}

#define TEST(name) \
    { #name, name }
static const struct {
    const char *name;
    void (*run)(void);
} tests[] = {
    TEST(channels), TEST(connections), TEST(pulses), TEST(threads), TEST(late),  TEST(processes), TEST(lengths),
    TEST(writes),   TEST(stopped),     TEST(users),  TEST(absent),  TEST(lives), TEST(busy),
};

static void run(void *at) { tests[(intptr_t)at].run(); }

int main(int count, char **words) {
    setvbuf(stdout, NULL, _IOLBF, 0);
    for (size_t at = 0; at < sizeof tests / sizeof *tests; at++) {
        bool asked = count == 1;
        for (int word = 1; word < count; word++) asked |= strcmp(words[word], tests[at].name) == 0;
        if (!asked) continue;
        expect_end(spawn(run, (void *)at));
        printf("%s\n", tests[at].name);
    }
    return 0;
}
