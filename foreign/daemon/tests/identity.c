/* identity [NAME..]: scoids, rcvids and pids of programs that have ended, after others have taken
 * their places. The tests with two users need root, and a daemon with the option --group. GROUP is
 * the number of that group. */
#define _GNU_SOURCE
#include "tests.h"

#include <fcntl.h>
#include <grp.h>
#include <sys/mman.h>
#include <sys/socket.h>
#include <sys/syscall.h>
#include <sys/un.h>

#include "wire.h"

struct shared {
    volatile int seen, ends;
    volatile pid_t pid;
};
static struct shared *shared;

struct message {
    uint16_t type;
    int number;
    struct sigevent event;
};

static void until_seen(int count) {
    while (shared->seen < count) usleep(200);
}

static void set_priority(int priority) {
    const struct sched_param param = {.sched_priority = priority};
    check(SchedSet(0, 0, SCHED_RR, &param) == 0);
}

/* Sends a message with an event, and stays until the test ends it. */
static void send_event(struct message *m) {
    int coid = open_name("server");
    m->type = _IO_MAX + 1;
    m->number = getpid();
    check(MsgSend(coid, m, sizeof *m, NULL, 0) == 0);
    shared->seen++;
    while (!shared->ends) usleep(200);
}

static void ask_for_signal(void *unused) {
    struct message m;
    (void)unused;
    SIGEV_SIGNAL_INIT(&m.event, SIGKILL);
    send_event(&m);
}

/* Receives one message and replies to it. Ignores pulses before it. */
static rcvid_t take_message(int chid, struct message *m, struct _msg_info *info) {
    for (;;) {
        union {
            struct _pulse pulse;
            struct message message;
        } room;
        set_timeout(LATE);
        rcvid_t rcvid = receive_answering_opens(chid, &room, sizeof room, info);
        check(rcvid != -1);
        if (rcvid == 0) continue;
        *m = room.message;
        check(MsgReply(rcvid, 0, NULL, 0) == 0);
        return rcvid;
    }
}

static void attach(void *chid) {
    int coid = ConnectAttach(0, getppid(), (int)(intptr_t)chid, _NTO_SIDE_CHANNEL, 0);
    check(coid != -1);
    shared->seen++;
    MsgSend(coid, &(struct message){.type = _IO_MAX + 1}, sizeof(struct message), NULL, 0);
    pause();
}

/* A client ends and another gets its place before its disconnect pulse is received. The
 * pulse names the first client. */
static void disconnects(void) {
    struct _msg_info first, second;
    struct _client_info client;
    struct _pulse pulse;
    struct message m;
    name_attach_t *name = name_attach(NULL, "server", 0);
    void *chid = (void *)(intptr_t)name->chid;
    pid_t one = spawn(attach, chid);
    take_message(name->chid, &m, &first);
    kill_child(one);
    while (ConnectClientInfo(first.scoid, &client, 0) == 0) usleep(1000);
    pid_t other = spawn(attach, chid);
    until_seen(2);
    check(MsgReceivePulse(name->chid, &pulse, sizeof pulse, NULL) == 0);
    check(pulse.code == _PULSE_CODE_DISCONNECT && pulse.scoid == first.scoid && ConnectDetach(pulse.scoid) == 0);
    take_message(name->chid, &m, &second);
    check(first.pid == one && second.pid == other && first.scoid != second.scoid);
    check(ConnectClientInfo(second.scoid, &client, 0) == 0 && client.pid == other);
    fails(ConnectClientInfo(first.scoid, &client, 0), EINVAL);
    kill_child(other);
    set_timeout(LATE);
    check(MsgReceivePulse(name->chid, &pulse, sizeof pulse, NULL) == 0);
    check(pulse.code == _PULSE_CODE_DISCONNECT && pulse.scoid == second.scoid);
    check(name_detach(name, 0) == 0);
}

static void note_scoid(void *unused) {
    struct _server_info info;
    (void)unused;
    int chid = ChannelCreate(0), coid = ConnectAttach(0, 0, chid, _NTO_SIDE_CHANNEL, 0);
    check(ConnectServerInfo(0, coid, &info) == coid);
    shared->seen = info.scoid;
}

/* Programs run one after another in one place. Each has an scoid of its own, which isn't a coid. */
static void scoids(void) {
    enum { PROGRAMS = 100 };
    int all[PROGRAMS], chid = ChannelCreate(0), coid = ConnectAttach(0, 0, chid, _NTO_SIDE_CHANNEL, 0);
    check(chid > 0);
    for (int count = 0; count < PROGRAMS; count++) {
        expect_end(spawn(note_scoid, NULL));
        all[count] = shared->seen;
        for (int at = 0; at < count; at++) check(all[at] != all[count]);
        check(all[count] > 0 && ConnectDetach(all[count]) == 0);
        fails(MsgSend(all[count], NULL, 0, NULL, 0), EBADF);
    }
    check(ConnectDetach(coid) == 0 && ChannelDestroy(chid) == 0);
}

/* An event of any kind of a client that has ended isn't delivered to the client that has its place now. */
static void events(void) {
    struct _msg_info first, second;
    struct message m;
    struct sigevent pulse;
    name_attach_t *name = name_attach(NULL, "server", 0);
    pid_t one = spawn(ask_for_signal, NULL);
    rcvid_t old = take_message(name->chid, &m, &first);
    struct _client_info client;
    int status;
    kill_child(one);
    while (ConnectClientInfo(first.scoid, &client, 0) == 0) usleep(1000);
    pid_t other = spawn(ask_for_signal, NULL);
    rcvid_t new = take_message(name->chid, &m, &second);
    check((old & 31) == (new & 31)); /* the same place */
    SIGEV_PULSE_INIT(&pulse, 1025, 10, 1, 1);
    fails(MsgDeliverEvent(old, &m.event), ESRCH);
    fails(MsgDeliverEvent(old, &pulse), ESRCH);
    fails(MsgVerifyEvent(old, &pulse), ESRCH);
    SIGEV_SIGNAL_CODE_INIT(&pulse, SIGKILL, 1, SI_QUEUE);
    fails(MsgDeliverEvent(old, &pulse), ESRCH);
    usleep(20000);
    check(waitpid(other, &status, WNOHANG) == 0);
    /* The old rcvid stays invalid after all places of channels have been taken again. */
    for (int turn = 0; turn < 200; turn++) {
        int chid = ChannelCreate(0), coid = ConnectAttach(0, 0, chid, _NTO_SIDE_CHANNEL, 0);
        check(MsgSendPulse(coid, 10, 1, 1) == 0 && ConnectDetach(coid) == 0 && ChannelDestroy(chid) == 0);
    }
    fails(MsgDeliverEvent(old, &m.event), ESRCH);
    check(MsgDeliverEvent(new, &m.event) == 0);
    check(waitpid(other, &status, 0) == other && WIFSIGNALED(status) && WTERMSIG(status) == SIGKILL);
    check(name_detach(name, 0) == 0);
}

/* Leaves its sockets to a child that the library doesn't know, and ends. */
static void leave_to_child(void *unused) {
    struct message m;
    (void)unused;
    shared->ends = 1;
    SIGEV_SIGNAL_INIT(&m.event, SIGKILL);
    send_event(&m);
    int child = (int)syscall(SYS_fork);
    if (child) {
        shared->pid = child;
        _exit(0);
    }
    sleep(PATIENCE);
    _exit(0);
}

/* A program has ended when its process has ended, even if another process has its sockets. */
static void forked(void) {
    struct _msg_info info;
    struct _client_info client;
    struct message m;
    name_attach_t *name = name_attach(NULL, "server", 0);
    pid_t one = spawn(leave_to_child, NULL);
    rcvid_t rcvid = take_message(name->chid, &m, &info);
    expect_end(one);
    struct _pulse pulse;
    set_timeout(LATE);
    check(MsgReceivePulse(name->chid, &pulse, sizeof pulse, NULL) == 0);
    check(pulse.code == _PULSE_CODE_DISCONNECT && pulse.scoid == info.scoid && kill(shared->pid, 0) == 0);
    fails(MsgDeliverEvent(rcvid, &m.event), ESRCH);
    fails(ConnectClientInfo(info.scoid, &client, 0), EINVAL);
    check(kill(shared->pid, SIGKILL) == 0 && name_detach(name, 0) == 0);
}

static void *send_on(void *coid) {
    MsgSend((int)(intptr_t)coid, &(struct message){.type = _IO_MAX + 1}, sizeof(struct message), NULL, 0);
    return NULL;
}

static void leave_blocked(void *unused) {
    pthread_t thread;
    (void)unused;
    check(pthread_create(&thread, NULL, send_on, (void *)(intptr_t)open_name("server")) == 0);
    until_seen(1);
    int child = (int)syscall(SYS_fork);
    if (child) {
        shared->pid = child;
        _exit(0);
    }
    sleep(PATIENCE);
    _exit(0);
}

/* The same while one of the program's threads is REPLY-blocked. */
static void forked_blocked(void) {
    struct _msg_info info;
    struct message m;
    struct _pulse pulse;
    name_attach_t *name = name_attach(NULL, "server", 0);
    pid_t one = spawn(leave_blocked, NULL);
    rcvid_t rcvid = receive_answering_opens(name->chid, &m, sizeof m, &info);
    check(rcvid > 0);
    shared->seen = 1;
    expect_end(one);
    set_timeout(LATE);
    check(MsgReceivePulse(name->chid, &pulse, sizeof pulse, NULL) == 0 && pulse.code == _PULSE_CODE_UNBLOCK);
    check(pulse.value.sival_int == rcvid && pulse.scoid == info.scoid && MsgReply(rcvid, 0, NULL, 0) == 0);
    set_timeout(LATE);
    check(MsgReceivePulse(name->chid, &pulse, sizeof pulse, NULL) == 0 && pulse.code == _PULSE_CODE_DISCONNECT);
    check(kill(shared->pid, SIGKILL) == 0 && name_detach(name, 0) == 0);
}

static int connect_raw(void) {
    struct sockaddr_un address = {.sun_family = AF_UNIX};
    int fd = socket(AF_UNIX, SOCK_SEQPACKET, 0);
    strncpy(address.sun_path, getenv("BALSAEUCHRE_SYSTEM"), sizeof address.sun_path - 1);
    check(fd != -1 && connect(fd, (struct sockaddr *)&address, sizeof address) == 0);
    return fd;
}

static int ask_raw(int fd, const struct wire_ask *ask) {
    struct wire_answer answer;
    check(send(fd, ask, sizeof *ask, MSG_NOSIGNAL) == sizeof *ask);
    return recv(fd, &answer, sizeof answer, 0) == sizeof answer ? answer.error : -1;
}

/* Starts a program that should get this pid, the pid of a program that has ended. Returns whether it got
 * it. */
static bool take_pid(pid_t wanted, int from_parent) {
    char text[20], byte;
    int fd = open("/proc/sys/kernel/ns_last_pid", O_WRONLY), length = snprintf(text, sizeof text, "%d", wanted - 1);
    check(fd != -1 && write(fd, text, (size_t)length) == length && close(fd) == 0);
    pid_t child = fork();
    if (child == 0) {
        if (getpid() != wanted) _exit(0);
        check(ChannelCreate(0) > 0);
        shared->seen = 1;
        check(read(from_parent, &byte, 1) == 1);
        _exit(0);
    }
    check(child > 0);
    if (child != wanted) expect_end(child);
    return child == wanted;
}

/* A socket of a process that has ended doesn't join as a thread of a later program with the same pid. */
static void reused_pids(void) {
    int line[2];
    const struct wire_ask join = {.op = OP_THREAD, .number = 9, .value = 10};
    if (geteuid() != 0 || access("/proc/sys/kernel/ns_last_pid", W_OK)) {
        printf("reused_pids is left out: only root can choose a pid\n");
        return;
    }
    for (int turn = 0;; turn++) { /* until no other process takes the pid first */
        int ends[2];
        check(turn < 1000 && pipe(line) == 0 && socketpair(AF_UNIX, SOCK_STREAM, 0, ends) == 0);
        pid_t one = fork();
        if (one == 0) {
            int fd = connect_raw();
            if (syscall(SYS_fork)) _exit(0);
            check(read(ends[0], &turn, 1) == 1);
            int error = ask_raw(fd, &join);
            check(write(ends[0], &error, sizeof error) == sizeof error);
            _exit(0);
        }
        expect_end(one);
        bool taken = take_pid(one, line[0]);
        if (taken) until_seen(1);
        int error = 0;
        check(write(ends[1], "", 1) == 1 && read(ends[1], &error, sizeof error) == sizeof error);
        check(error == ESRCH && close(ends[0]) == 0 && close(ends[1]) == 0);
        check(write(line[1], "", 1) == 1);
        if (taken) expect_end(one);
        check(close(line[0]) == 0 && close(line[1]) == 0);
        if (taken) break;
    }
}

enum { LINK = 5 };                           /* the most messages of a program */
static const uid_t users[] = {12345, 12346}; /* the numbers of two users */

static gid_t group_of_daemon(void) {
    const char *group = getenv("GROUP");
    return geteuid() == 0 && group ? (gid_t)atoi(group) : 0;
}

static void become(uid_t user) {
    gid_t group = group_of_daemon();
    check(setgroups(0, NULL) == 0 && setgid(group) == 0 && setuid(user) == 0 && chdir("/") == 0);
}

/* Sends its user's number several times, at the highest or the lowest priority, and ends. */
static void say_user(void *at) {
    struct message m = {.type = _IO_MAX + 1};
    uid_t user = users[(intptr_t)at];
    become(user);
    m.number = (int)user;
    int coid = open_name("server");
    set_priority(user == users[0] ? 255 : 1);
    for (int left = 1 + (int)getpid() % LINK; left; left--) check(MsgSend(coid, &m, sizeof m, NULL, 0) == (long)user);
}

/* Programs of two users come and go. A server asks for each scoid once which user the client has, and keeps
 * the result until the disconnect pulse. The result is right for each message. */
static void two_users(void) {
    enum { PROGRAMS = 300, AT_A_TIME = 6 };
    static struct {
        int scoid;
        uid_t user;
    } known[1024];
    int left = 0, started = 0;
    name_attach_t *name = name_attach(NULL, "server", 0);
    while (started < PROGRAMS || left) {
        while (started < PROGRAMS && left < AT_A_TIME) {
            spawn(say_user, (void *)(intptr_t)(rand() % 2));
            started++;
            left++;
        }
        union {
            struct _pulse pulse;
            struct message message;
        } room;
        struct _msg_info info;
        int free_entry = -1, at = 0, status;
        set_timeout(20);
        rcvid_t rcvid = receive_answering_opens(name->chid, &room, sizeof room, &info);
        check(rcvid != -1 || errno == ETIMEDOUT);
        int scoid = rcvid > 0 ? info.scoid : rcvid == 0 ? room.pulse.scoid : 0;
        for (at = 0; at < 1024 && known[at].scoid != scoid; at++) {
            if (!known[at].scoid) free_entry = at;
        }
        if (rcvid == 0) {
            check(room.pulse.code == _PULSE_CODE_DISCONNECT);
            if (at < 1024) known[at].scoid = 0;
        } else if (rcvid > 0) {
            if (at == 1024) {
                struct _client_info client;
                check((at = free_entry) != -1 && ConnectClientInfo(scoid, &client, 0) == 0);
                known[at].scoid = scoid;
                known[at].user = client.cred.euid;
                check(client.cred.egid == group_of_daemon() && client.pid == info.pid);
            }
            check(known[at].user == (uid_t)room.message.number);
            check(MsgReply(rcvid, room.message.number, NULL, 0) == 0);
        }
        while (left && waitpid(-1, &status, WNOHANG) > 0) {
            check(WIFEXITED(status) && WEXITSTATUS(status) == 0);
            left--;
        }
    }
    check(name_detach(name, 0) == 0);
}

static void *serve_signal(void *user) {
    struct message m;
    struct _msg_info info;
    if (user) become(users[1]);
    name_attach_t *name = name_attach(NULL, "server", 0);
    rcvid_t rcvid = take_message(name->chid, &m, &info);
    int error = MsgDeliverEvent(rcvid, &m.event) ? errno : 0;
    check(error == (user ? EPERM : 0));
    return NULL;
}

static void serve_as_root(void *unused) { serve_signal(unused); }

static void serve_as_user(void *unused) {
    (void)unused;
    serve_signal(&shared);
}

static void ask_as_user(void *at) {
    become(users[(intptr_t)at]);
    ask_for_signal(NULL);
}

/* A server may signal its client if the host lets it: root may, and another user may not. */
static void signals_of_users(void) {
    int status;
    pid_t server = spawn(serve_as_user, NULL), client = spawn(ask_as_user, (void *)0);
    expect_end(server);
    check(waitpid(client, &status, WNOHANG) == 0);
    kill_child(client);
    server = spawn(serve_as_root, NULL);
    client = spawn(ask_as_user, (void *)0);
    expect_end(server);
    check(waitpid(client, &status, 0) == client && WIFSIGNALED(status) && WTERMSIG(status) == SIGKILL);
}

static void of_users(void) {
    if (!group_of_daemon()) {
        printf("users are left out: only root can try, with GROUP and a daemon of that group\n");
        return;
    }
    two_users();
    signals_of_users();
}

#define TEST(name) \
    { #name, name }
static const struct {
    const char *name;
    void (*run)(void);
} tests[] = {
    TEST(disconnects),    TEST(scoids),      TEST(events),   TEST(forked),
    TEST(forked_blocked), TEST(reused_pids), TEST(of_users),
};

static void run(void *at) { tests[(intptr_t)at].run(); }

int main(int count, char **words) {
    setvbuf(stdout, NULL, _IOLBF, 0);
    shared = mmap(NULL, sizeof *shared, PROT_READ | PROT_WRITE, MAP_SHARED | MAP_ANONYMOUS, -1, 0);
    check(shared != MAP_FAILED);
    for (size_t at = 0; at < sizeof tests / sizeof *tests; at++) {
        bool asked = count == 1;
        for (int word = 1; word < count; word++) asked |= strcmp(words[word], tests[at].name) == 0;
        if (!asked) continue;
        memset((void *)shared, 0, sizeof *shared);
        expect_end(spawn(run, (void *)at));
        printf("%s\n", tests[at].name);
    }
    return 0;
}
