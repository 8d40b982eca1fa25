/* ends [NAME..]: clients and servers as processes, and the state that is left when one of them ends. */
#define _GNU_SOURCE
#include "tests.h"

#include <fcntl.h>
#include <sys/mman.h>
#include <sys/socket.h>
#include <sys/un.h>

struct shared {
    volatile int errors[8];
    volatile int seen, sent, received;
    volatile int scoid;
};
static struct shared *shared;

static void until_seen(int count) {
    while (shared->seen < count) usleep(200);
}

/* Sends "hello" twice over a connection to "server", and keeps the errors. */
static void send_twice(void *unused) {
    char reply[16] = "";
    int coid = open_name("server");
    (void)unused;
    int at = __sync_fetch_and_add(&shared->sent, 1);
    shared->seen = 1;
    shared->errors[2 * at] = MsgSend(coid, "hello", 6, reply, sizeof reply) == -1 ? errno : 0;
    shared->errors[2 * at + 1] = MsgSend(coid, "hello", 6, reply, sizeof reply) == -1 ? errno : 0;
}

static void expect_pulse(int chid, int code, int scoid, int value) {
    struct _pulse pulse;
    set_timeout(LATE);
    check(MsgReceivePulse(chid, &pulse, sizeof pulse, NULL) == 0);
    check(pulse.code == code && pulse.scoid == scoid && pulse.value.sival_int == value);
}

static void expect_nothing(int chid) {
    char room[64];
    set_timeout(20);
    fails(MsgReceive(chid, room, sizeof room, NULL), ETIMEDOUT);
}

/* A client dies while it is REPLY-blocked. Its server gets the unblock pulse, and knows the client until the
 * reply. Then the server gets the disconnect pulse. */
static void client_dies(void) {
    char room[64];
    struct _msg_info info;
    struct _client_info client;
    name_attach_t *name = name_attach(NULL, "server", 0);
    check(name);
    pid_t child = spawn(send_twice, NULL);
    rcvid_t rcvid = receive_answering_opens(name->chid, room, sizeof room, &info);
    check(rcvid > 0 && info.pid == child && info.tid == 1 && strcmp(room, "hello") == 0 && info.msglen == 6);
    check(ConnectClientInfo(info.scoid, &client, 8) == 0 && client.pid == child && client.cred.euid == geteuid());
    kill_child(child);
    expect_pulse(name->chid, _PULSE_CODE_UNBLOCK, info.scoid, rcvid);
    check(MsgInfo(rcvid, &info) == 0 && info.flags & _NTO_MI_UNBLOCK_REQ && info.pid == child);
    check(ConnectClientInfo(info.scoid, &client, 8) == 0 && client.pid == child && client.cred.euid == geteuid());
    check(MsgRead(rcvid, room, sizeof room, 1) == 5 && strcmp(room, "ello") == 0);
    expect_nothing(name->chid);
    check(MsgReply(rcvid, 0, NULL, 0) == 0);
    fails(MsgReply(rcvid, 0, NULL, 0), ESRCH);
    expect_pulse(name->chid, _PULSE_CODE_DISCONNECT, info.scoid, 0);
    fails(ConnectClientInfo(info.scoid, &client, 0), EINVAL);
    expect_nothing(name->chid);
    check(name_detach(name, 0) == 0);
}

/* On a channel without the flag UNBLOCK, the message of a client that dies is gone at once. */
static void held_without_flag(void) {
    char room[64];
    struct _msg_info info;
    int to_child[2], chid = ChannelCreate(_NTO_CHF_DISCONNECT);
    check(pipe(to_child) == 0);
    pid_t server = getpid(), child = fork();
    if (child == 0) {
        check(read(to_child[0], room, 1) == 1);
        int coid = ConnectAttach(0, server, chid, _NTO_SIDE_CHANNEL, 0);
        MsgSend(coid, "hello", 6, NULL, 0);
        _exit(1);
    }
    check(write(to_child[1], "", 1) == 1);
    rcvid_t rcvid = MsgReceive(chid, room, sizeof room, &info);
    check(rcvid > 0);
    kill_child(child);
    expect_pulse(chid, _PULSE_CODE_DISCONNECT, info.scoid, 0);
    fails(MsgReply(rcvid, 0, NULL, 0), ESRCH);
    check(ChannelDestroy(chid) == 0);
}

static void time_out(void *unused) {
    int coid = open_name("server");
    (void)unused;
    set_timeout(20);
    MsgSend(coid, "hello", 6, NULL, 0);
}

/* A client whose call has timed out dies before its server receives the unblock pulse. The
 * pulse still names the message. */
static void late_client_dies(void) {
    char room[64];
    struct _msg_info info;
    name_attach_t *name = name_attach(NULL, "server", 0);
    pid_t child = spawn(time_out, NULL);
    rcvid_t rcvid = receive_answering_opens(name->chid, room, sizeof room, &info);
    check(rcvid > 0);
    while (MsgInfo(rcvid, &info) == 0 && !(info.flags & _NTO_MI_UNBLOCK_REQ)) usleep(1000);
    kill_child(child);
    usleep(20000);
    expect_pulse(name->chid, _PULSE_CODE_UNBLOCK, info.scoid, rcvid);
    check(MsgError(rcvid, EINTR) == 0);
    expect_pulse(name->chid, _PULSE_CODE_DISCONNECT, info.scoid, 0);
    expect_nothing(name->chid);
    check(name_detach(name, 0) == 0);
}

/* The server replies between the death of its client and the receipt of the unblock pulse. The
 * pulse still names the message. */
static void answered_late(void) {
    char room[64];
    struct _msg_info info;
    name_attach_t *name = name_attach(NULL, "server", 0);
    pid_t child = spawn(send_twice, NULL);
    rcvid_t rcvid = receive_answering_opens(name->chid, room, sizeof room, &info);
    kill_child(child);
    while (MsgInfo(rcvid, &info) == 0 && !(info.flags & _NTO_MI_UNBLOCK_REQ)) usleep(1000);
    check(MsgReply(rcvid, 0, NULL, 0) == 0);
    struct _pulse all[2];
    for (int at = 0; at < 2; at++) {
        set_timeout(LATE);
        check(MsgReceivePulse(name->chid, &all[at], sizeof all[at], NULL) == 0 && all[at].scoid == info.scoid);
    }
    check(all[0].code == _PULSE_CODE_UNBLOCK && all[0].value.sival_int == rcvid);
    check(all[1].code == _PULSE_CODE_DISCONNECT);
    check(name_detach(name, 0) == 0);
}

static void join_and_end(void *unused) {
    (void)unused;
    _exit(ChannelCreate(0) > 0 ? 0 : errno);
}

/* Servers that never reply: dead clients keep their places, but only until others need them. The client that
 * died first loses its place first. Its server's pulses are as usual. */
static void never_answered(void) {
    enum { MOST = 40 };
    char room[64];
    struct _client_info client;
    int scoids[MOST], count = 0, rcvids[MOST];
    name_attach_t *name = name_attach(NULL, "server", 0);
    for (; count < MOST; count++) { /* until one client more has come than there are places */
        struct _msg_info info;
        pid_t child = spawn(send_twice, NULL);
        rcvids[count] = receive_answering_opens(name->chid, room, sizeof room, &info);
        while (rcvids[count] == 0) { /* pulses of earlier clients */
            rcvids[count] = receive_answering_opens(name->chid, room, sizeof room, &info);
        }
        check(rcvids[count] > 0 && info.pid == child);
        scoids[count] = info.scoid;
        kill_child(child);
        if (count && ConnectClientInfo(scoids[0], &client, 0)) break;
    }
    check(count >= 2 && count < MOST);
    fails(MsgReply(rcvids[0], 0, NULL, 0), ESRCH);
    for (int at = 1; at <= count; at++) check(ConnectClientInfo(scoids[at], &client, 0) == 0);
    expect_end(spawn(join_and_end, NULL));
    fails(ConnectClientInfo(scoids[1], &client, 0), EINVAL);
    for (int at = 2; at <= count; at++) check(MsgReply(rcvids[at], 0, NULL, 0) == 0);
    check(name_detach(name, 0) == 0);
}

/* A client dies before its message is received. */
static void sender_dies(void) {
    char room[64];
    name_attach_t *name = name_attach(NULL, "server", 0);
    pid_t child = spawn(send_twice, NULL);
    rcvid_t rcvid = MsgReceive(name->chid, room, sizeof room, NULL);
    check(rcvid > 0 && MsgReply(rcvid, EOK, NULL, 0) == 0);
    until_seen(1);
    usleep(20000);
    kill_child(child);
    set_timeout(LATE);
    check(MsgReceivePulse(name->chid, room, sizeof room, NULL) == 0);
    set_timeout(20);
    fails(MsgReceive(name->chid, room, sizeof room, NULL), ETIMEDOUT);
    check(name_detach(name, 0) == 0);
}

static void hold_all(void *unused) {
    char room[64];
    (void)unused;
    name_attach_t *name = name_attach(NULL, "server", 0);
    check(name && receive_answering_opens(name->chid, room, sizeof room, NULL) > 0);
    shared->received++;
    for (;;) {
        uint16_t type;
        rcvid_t rcvid = MsgReceive(name->chid, room, sizeof room, NULL);
        memcpy(&type, room, sizeof type);
        if (rcvid > 0 && type == _IO_CONNECT) MsgReply(rcvid, EOK, NULL, 0);
        else if (rcvid > 0) shared->received++;
    }
}

/* A server dies. Calls that wait fail with ESRCH, later calls with EBADF, and the server's name is free. */
static void server_dies(void) {
    pid_t server = spawn(hold_all, NULL), client[3];
    for (int at = 0; at < 3; at++) client[at] = spawn(send_twice, NULL);
    while (shared->received < 3) usleep(200);
    fails(name_open("nobody", 0), ENOENT);
    int coid = name_open("server", 0);
    check(coid != -1);
    kill_child(server);
    for (int at = 0; at < 3; at++) expect_end(client[at]);
    for (int at = 0; at < 6; at++) check(shared->errors[at] == (at % 2 ? EBADF : ESRCH));
    fails(MsgSend(coid, NULL, 0, NULL, 0), EBADF);
    fails(MsgSendPulse(coid, 10, 1, 1), EBADF);
    fails(name_open("server", 0), ENOENT);
    name_attach_t *name = name_attach(NULL, "server", 0);
    check(name && ConnectDetach(coid) == 0 && name_detach(name, 0) == 0);
}

static void *wait_on(void *chid) {
    char room[64];
    MsgReceive((int)(intptr_t)chid, room, sizeof room, NULL);
    return NULL;
}

/* A connection's server dies. A channel that asks for it gets a pulse. */
static void connection_dies(void) {
    struct _pulse pulse;
    int chid = ChannelCreate(_NTO_CHF_COID_DISCONNECT);
    pid_t server = spawn(hold_all, NULL);
    int coid = open_name("server");
    kill_child(server);
    set_timeout(LATE);
    check(MsgReceivePulse(chid, &pulse, sizeof pulse, NULL) == 0);
    check(pulse.code == _PULSE_CODE_COIDDEATH && pulse.value.sival_int == coid);
    check(ConnectDetach(coid) == 0 && ChannelDestroy(chid) == 0);
}

static void fill(void *unused) {
    int coid = open_name("server"), sent = 0;
    (void)unused;
    while (MsgSendPulse(coid, 10, 1, sent) == 0) sent++;
    check(errno == EAGAIN);
    shared->sent = sent;
    shared->seen = 1;
    pause();
}

/* A channel full of pulses keeps no program's place. Each client that dies is gone at once, and there is room
 * for its disconnect pulse. */
static void full_channel(void) {
    struct _pulse pulse;
    struct _client_info client;
    struct _msg_info info;
    char room[64];
    name_attach_t *name = name_attach(NULL, "server", 0);
    pid_t child = spawn(fill, NULL);
    rcvid_t rcvid = MsgReceive(name->chid, room, sizeof room, &info);
    check(rcvid > 0 && MsgReply(rcvid, EOK, NULL, 0) == 0);
    until_seen(1);
    check(shared->sent > 900 && shared->sent < 1024);
    kill_child(child);
    while (ConnectClientInfo(info.scoid, &client, 0) == 0) usleep(1000);
    for (int turn = 0; turn < 100; turn++) { /* all others continue */
        int chid = ChannelCreate(0), coid = ConnectAttach(0, 0, chid, _NTO_SIDE_CHANNEL, 0);
        check(chid > 0 && MsgSendPulse(coid, 10, 1, 1) == 0 && MsgReceivePulse(chid, &pulse, sizeof pulse, NULL) == 0);
        check(ConnectDetach(coid) == 0 && ChannelDestroy(chid) == 0);
    }
    for (int at = 0; at < shared->sent; at++) {
        check(MsgReceivePulse(name->chid, &pulse, sizeof pulse, NULL) == 0);
        check(pulse.code == 1 && pulse.value.sival_int == at && pulse.scoid == info.scoid);
    }
    expect_pulse(name->chid, _PULSE_CODE_DISCONNECT, info.scoid, 0);
    check(name_detach(name, 0) == 0);
}

static void attach_often(void *chid) {
    struct _server_info info;
    int coid;
    while ((coid = ConnectAttach(0, getppid(), (int)(intptr_t)chid, _NTO_SIDE_CHANNEL, 0)) != -1) {
        check(ConnectServerInfo(0, coid, &info) == coid && ConnectDetach(coid) == 0);
        shared->sent++;
        shared->scoid = info.scoid;
    }
    check(errno == EAGAIN);
}

/* So many disconnect pulses wait that there is no room for another. A process that
 * would owe one can't connect. */
static void full_of_disconnects(void) {
    struct _pulse pulse;
    int chid = ChannelCreate(_NTO_CHF_DISCONNECT);
    expect_end(spawn(attach_often, (void *)(intptr_t)chid));
    check(shared->sent == 1024);
    fails(ConnectAttach(0, 0, chid, _NTO_SIDE_CHANNEL, 0), EAGAIN);
    for (int at = 0; at < 1024; at++) expect_pulse(chid, _PULSE_CODE_DISCONNECT, shared->scoid, 0);
    int coid = ConnectAttach(0, 0, chid, _NTO_SIDE_CHANNEL, 0);
    check(coid != -1 && ConnectDetach(coid) == 0);
    check(MsgReceivePulse(chid, &pulse, sizeof pulse, NULL) == 0 && pulse.code == _PULSE_CODE_DISCONNECT);
    check(ChannelDestroy(chid) == 0);
}

static void *send_and_stay(void *coid) {
    char room[64];
    MsgSend((int)(intptr_t)coid, "thread", 7, room, sizeof room);
    return NULL;
}

/* A thread is cancelled while its message is held. Its server is asked by a pulse to unblock it. */
static void thread_ends(void) {
    char room[64];
    struct _msg_info info;
    pthread_t thread;
    int chid = ChannelCreate(_NTO_CHF_UNBLOCK), coid = ConnectAttach(0, 0, chid, _NTO_SIDE_CHANNEL, 0);
    check(pthread_create(&thread, NULL, send_and_stay, (void *)(intptr_t)coid) == 0);
    rcvid_t rcvid = MsgReceive(chid, room, sizeof room, &info);
    check(rcvid > 0 && pthread_cancel(thread) == 0);
    set_timeout(LATE);
    check(MsgReceive(chid, room, sizeof room, NULL) == 0);
    const struct _pulse *pulse = (const void *)room;
    check(pulse->code == _PULSE_CODE_UNBLOCK && pulse->value.sival_int == rcvid);
    check(MsgInfo(rcvid, &info) == 0 && info.flags & _NTO_MI_UNBLOCK_REQ && MsgError(rcvid, EINTR) == 0);
    check(pthread_join(thread, NULL) == 0);
    check(pthread_create(&thread, NULL, wait_on, (void *)(intptr_t)chid) == 0);
    usleep(10000);
    check(pthread_cancel(thread) == 0 && pthread_join(thread, NULL) == 0);
    check(ConnectDetach(coid) == 0 && ChannelDestroy(chid) == 0);
}

static void exec_self(void *unused) {
    (void)unused;
    check(name_attach(NULL, "server", 0));
    shared->seen = 1;
    execl("/bin/sleep", "sleep", "60", (char *)NULL);
}

/* A process that executes another program has ended for the kernel. A forked child is another process. */
static void fork_and_exec(void) {
    char room[64];
    pid_t child = spawn(exec_self, NULL);
    until_seen(1);
    name_attach_t *name = NULL;
    while (!name) { /* until the daemon knows that it has ended */
        name = name_attach(NULL, "server", 0);
        if (!name) usleep(1000);
    }
    kill_child(child);
    child = spawn(send_twice, NULL);
    rcvid_t rcvid = receive_answering_opens(name->chid, room, sizeof room, NULL);
    check(rcvid > 0);
    pid_t other = fork();
    if (other == 0) {
        fails(MsgReply(rcvid, 0, NULL, 0), ESRCH);
        fails(MsgReceive(name->chid, room, sizeof room, NULL), ESRCH);
        _exit(ChannelDestroy(name->chid) == -1 && errno == EINVAL ? 0 : 1);
    }
    expect_end(other);
    check(MsgReply(rcvid, 0, NULL, 0) == 0);
    kill_child(child);
    check(name_detach(name, 0) == 0);
}

static void ignore(int signo) { (void)signo; }

/* A signal handler ends a call that waits, and no other call. */
static void interrupted(void) {
    struct sigaction action;
    memset(&action, 0, sizeof action);
    action.sa_handler = ignore;
    int chid = ChannelCreate(0), coid = ConnectAttach(0, 0, chid, _NTO_SIDE_CHANNEL, 0);
    check(sigaction(SIGALRM, &action, NULL) == 0);
    ualarm(2000, 2000); /* again and again, because a signal may come before the call */
    for (int turn = 0; turn < 20; turn++) {
        fails(MsgReceive(chid, NULL, 0, NULL), EINTR);
        fails(MsgSend(coid, NULL, 0, NULL, 0), EINTR);
    }
    ualarm(0, 0);
    check(ConnectDetach(coid) == 0 && ChannelDestroy(chid) == 0);
}

static void *wait_at_23(void *chid) {
    const struct sched_param param = {.sched_priority = 23};
    check(SchedSet(0, 0, SCHED_RR, &param) == 0);
    return wait_on(chid);
}

/* pidin prints the priority of each thread, also of a thread that waits. */
static void shown(void) {
    pthread_t thread;
    char text[16384], wanted[40];
    int chid = ChannelCreate(0), ends[2];
    snprintf(wanted, sizeof wanted, " 23 RECEIVE  chid %d\n", chid);
    check(pipe(ends) == 0 && pthread_create(&thread, NULL, wait_at_23, (void *)(intptr_t)chid) == 0);
    do {
        usleep(1000);
        neutrino_show(ends[1]);
        ssize_t length = read(ends[0], text, sizeof text - 1);
        check(length > 0);
        text[length] = 0;
    } while (!strstr(text, wanted));
    check(ChannelDestroy(chid) == 0 && pthread_join(thread, NULL) == 0);
}

static void *kill_soon(void *daemon) {
    usleep((useconds_t)(getpid() * 7919L % 50000));
    check(kill((pid_t)(intptr_t)daemon, SIGKILL) == 0);
    return NULL;
}

static pid_t pid_of_daemon(void) {
    struct sockaddr_un address = {.sun_family = AF_UNIX};
    struct ucred daemon;
    socklen_t length = sizeof daemon;
    int fd = socket(AF_UNIX, SOCK_SEQPACKET, 0);
    strncpy(address.sun_path, getenv("BALSAEUCHRE_SYSTEM"), sizeof address.sun_path - 1);
    check(connect(fd, (struct sockaddr *)&address, sizeof address) == 0);
    check(getsockopt(fd, SOL_SOCKET, SO_PEERCRED, &daemon, &length) == 0 && daemon.pid > 0 && close(fd) == 0);
    return daemon.pid;
}

static void answer_on(void *unused) {
    char room[64];
    (void)unused;
    name_attach_t *name = name_attach(NULL, "server", 0);
    check(name);
    for (;;) {
        rcvid_t rcvid = receive_answering_opens(name->chid, room, sizeof room, NULL);
        if (rcvid < 0 || MsgReply(rcvid, 0, room, 6)) break;
    }
    check(errno == ESHUTDOWN);
}

/* The daemon is killed at a random time. From then on all calls of a server, of a client and of a thread that
 * only waits fail with ESHUTDOWN. This test doesn't run by default. */
static void daemon_dies(void) {
    pthread_t thread, waiter;
    char back[16];
    pid_t server = spawn(answer_on, NULL);
    int chid = ChannelCreate(0), coid = open_name("server");
    check(pthread_create(&waiter, NULL, wait_on, (void *)(intptr_t)chid) == 0);
    check(pthread_create(&thread, NULL, kill_soon, (void *)(intptr_t)pid_of_daemon()) == 0);
    while (MsgSend(coid, "hello", 6, back, sizeof back) == 0) continue;
    check(errno == ESHUTDOWN);
    fails(ChannelCreate(0), ESHUTDOWN);
    check(pthread_join(thread, NULL) == 0 && pthread_join(waiter, NULL) == 0);
    expect_end(server);
}

#define TEST(name) \
    { #name, name }
static const struct {
    const char *name;
    void (*run)(void);
} tests[] = {
    TEST(client_dies), TEST(held_without_flag), TEST(late_client_dies), TEST(answered_late), TEST(never_answered),
    TEST(sender_dies), TEST(server_dies),       TEST(connection_dies),  TEST(full_channel),  TEST(full_of_disconnects),
    TEST(thread_ends), TEST(fork_and_exec),     TEST(interrupted),      TEST(shown),         TEST(daemon_dies),
};

static void run(void *at) { tests[(intptr_t)at].run(); }

int main(int count, char **words) {
    setvbuf(stdout, NULL, _IOLBF, 0);
    shared = mmap(NULL, sizeof *shared, PROT_READ | PROT_WRITE, MAP_SHARED | MAP_ANONYMOUS, -1, 0);
    check(shared != MAP_FAILED);
    for (size_t at = 0; at < sizeof tests / sizeof *tests; at++) {
        bool asked = count == 1 && tests[at].run != daemon_dies;
        for (int word = 1; word < count; word++) asked |= strcmp(words[word], tests[at].name) == 0;
        if (!asked) continue;
        memset((void *)shared, 0, sizeof *shared);
        expect_end(spawn(run, (void *)at));
        printf("%s\n", tests[at].name);
    }
    return 0;
}
