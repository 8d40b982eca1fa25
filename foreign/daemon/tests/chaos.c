/* chaos SECONDS SEED: servers and clients as processes, which are killed, stopped and started again at random
 * times. Each message, reply, pulse and signal has to be for its receiver:
 *
 * - a reply has its client's number;
 * - a message and a client's info have the sender's pid;
 * - a pulse has its sender's pid;
 * - a disconnect pulse names a client that has ended or detached;
 * - an unblock pulse names a received message of a client that has ended or was interrupted;
 * - a signal reaches the client that asked for it. */
#define _GNU_SOURCE
#include "tests.h"

#include <sys/mman.h>
#include <sys/prctl.h>
#include <time.h>

enum { SERVERS = 4, WORKERS = 12, LIVES = 1 << 16, HELD = 4, RECEIVED = 4096 };

/* A client's process, from its start to its end. */
struct life {
    volatile pid_t pid;
    volatile bool killed, interrupts; /* interrupts: by timeouts and signals */
    volatile int detached[SERVERS], disconnected[SERVERS];
};

struct all {
    volatile int lives;
    volatile long count[WORKERS];
    struct life life[LIVES];
};
static struct all *all;

struct message {
    uint16_t type;
    pid_t pid;
    int number;
    struct sigevent event;
};

static int worker;

static struct life *life_of(pid_t pid) {
    for (int at = all->lives; at--;) {
        if (all->life[at].pid == pid) return &all->life[at];
    }
    return NULL;
}

static bool is_gone(int error) { return error == ESRCH || error == EBADF || error == ENOENT || error == EAGAIN; }

/* ---- servers */

struct received {
    rcvid_t rcvid;
    int scoid;
    pid_t pid;
    bool unblocked;
    struct sigevent event;
};

static struct received received[RECEIVED];
static unsigned receipts;
static struct received held[HELD]; /* rcvid 0: none */

static void answer(struct received *message) {
    check(MsgReply(message->rcvid, message->pid, &message->pid, sizeof message->pid) == 0 || errno == ESRCH);
    message->rcvid = 0;
}

/* Delivers the event of a random message that was received. */
static void deliver_any(void) {
    const struct received *message = &received[(unsigned)rand() % (receipts < RECEIVED ? receipts + 1 : RECEIVED)];
    if (message->rcvid) check(MsgDeliverEvent(message->rcvid, &message->event) == 0 || is_gone(errno));
}

static void take_message(rcvid_t rcvid, const struct message *m, const struct _msg_info *info) {
    struct _client_info client;
    bool is_open = m->type == _IO_CONNECT;
    check(is_open || info->pid == m->pid);
    check(ConnectClientInfo(info->scoid, &client, 0) == 0 ? client.pid == info->pid : errno == EINVAL);
    struct received *message = &received[receipts++ % RECEIVED];
    *message = (struct received){rcvid, info->scoid, info->pid, false, m->event};
    if (is_open) {
        message->event.sigev_notify = SIGEV_NONE;
        check(MsgReply(rcvid, EOK, NULL, 0) == 0 || errno == ESRCH);
        return;
    }
    struct received *place = &held[rand() % HELD];
    if (place->rcvid) answer(place);
    if (rand() % 4 == 0) *place = *message;
    else answer(&(struct received){.rcvid = rcvid, .pid = m->pid});
    if (rand() % 2 == 0) deliver_any();
}

static void take_unblock(const struct _pulse *pulse) {
    for (unsigned at = 0; at < RECEIVED; at++) {
        struct received *message = &received[at];
        if (message->rcvid != pulse->value.sival_int) continue;
        const struct life *life = life_of(message->pid);
        check(pulse->scoid == message->scoid && !message->unblocked);
        check(life && (life->killed || life->interrupts));
        message->unblocked = true;
        for (int place = 0; place < HELD; place++) {
            if (held[place].rcvid == message->rcvid) answer(&held[place]);
        }
        return;
    }
    check(receipts > RECEIVED && pulse->value.sival_int > 0); /* otherwise the message would be known */
}

static void take_disconnect(const struct _pulse *pulse) {
    struct _client_info client;
    if (ConnectClientInfo(pulse->scoid, &client, 0)) {
        check(errno == EINVAL);
        return;
    }
    struct life *life = life_of(client.pid);
    check(life && (life->killed || life->disconnected[worker] < life->detached[worker]));
    life->disconnected[worker]++;
}

static void take_pulse(const struct _pulse *pulse) {
    struct _client_info client;
    if (pulse->code == _PULSE_CODE_UNBLOCK) {
        take_unblock(pulse);
    } else if (pulse->code == _PULSE_CODE_DISCONNECT) {
        take_disconnect(pulse);
    } else {
        check(pulse->code == 5);
        check(ConnectClientInfo(pulse->scoid, &client, 0) == 0 ? client.pid == pulse->value.sival_int
                                                               : errno == EINVAL);
    }
}

static void serve(void) {
    char text[8];
    snprintf(text, sizeof text, "c%d", worker);
    for (;;) {
        name_attach_t *name = name_attach(NULL, text, 0);
        all->count[worker]++;
        check(name || errno == EEXIST || errno == EBUSY || is_gone(errno));
        if (!name) usleep(500);
        for (int left = name ? 200 + rand() % 2000 : 0; left; left--) {
            union {
                struct _pulse pulse;
                struct message message;
            } room;
            struct _msg_info info;
            set_timeout(1 + rand() % 20);
            rcvid_t rcvid = MsgReceive(name->chid, &room, sizeof room, &info);
            check(rcvid >= 0 || errno == ETIMEDOUT);
            all->count[worker]++;
            if (rcvid > 0) take_message(rcvid, &room.message, &info);
            else if (rcvid == 0) take_pulse(&room.pulse);
        }
        memset(held, 0, sizeof held);
        memset(received, 0, sizeof received);
        receipts = 0;
        check(!name || name_detach(name, 0) == 0);
    }
}

/* ---- clients */

static struct life *own;

static void take_signal(int signo, siginfo_t *info, void *context) {
    (void)signo;
    (void)context;
    if (info->si_value.sival_int == own->pid) return;
    static const char text[] = "a signal of another program\n";
    if (write(STDERR_FILENO, text, sizeof text - 1) < 0) _exit(2);
    _exit(1);
}

/* Takes the pulses on its own channel, which all come from its own events. */
static void take_own_pulses(int chid) {
    for (;;) {
        struct _pulse pulse;
        set_timeout(0);
        if (MsgReceivePulse(chid, &pulse, sizeof pulse, NULL)) break;
        check(pulse.code == 6 && pulse.value.sival_int == own->pid);
    }
    check(errno == ETIMEDOUT || errno == EINTR);
}

/* Sends a message to a server, and perhaps a pulse before it. Returns whether the connection still works. */
static bool ask(int coid, int self_coid) {
    struct message m = {.type = _IO_MAX + 1, .pid = own->pid};
    pid_t back = 0;
    SIGEV_PULSE_INIT(&m.event, self_coid, 10, 6, own->pid);
    if (own->interrupts && rand() % 2) SIGEV_SIGNAL_CODE_INIT(&m.event, SIGUSR1, own->pid, SI_QUEUE);
    if (rand() % 8 == 0 && MsgSendPulse(coid, -1, 5, own->pid)) return false;
    if (own->interrupts && rand() % 8 == 0) set_timeout(1 + rand() % 3);
    long status = MsgSend(coid, &m, sizeof m, &back, sizeof back);
    int error = errno;
    all->count[worker]++;
    if (status != -1) check(status == own->pid && back == own->pid);
    else check(is_gone(error) || (own->interrupts && (error == EINTR || error == ETIMEDOUT)));
    return status != -1 || error == EINTR || error == ETIMEDOUT;
}

static void ask_on(void) {
    struct sigaction action;
    memset(&action, 0, sizeof action);
    action.sa_sigaction = take_signal;
    action.sa_flags = SA_SIGINFO | SA_RESTART;
    check(sigaction(SIGUSR1, &action, NULL) == 0);
    int chid = -1, self_coid = -1;
    while (chid == -1) { /* all places may be taken for a moment */
        chid = ChannelCreate(0);
        check(chid != -1 || errno == EAGAIN || errno == EINTR);
        all->count[worker]++;
    }
    while (self_coid == -1) self_coid = ConnectAttach(0, 0, chid, _NTO_SIDE_CHANNEL, 0);
    for (;;) {
        char text[8];
        int server = rand() % SERVERS;
        snprintf(text, sizeof text, "c%d", server);
        own->detached[server]++; /* a server may see the detach at once; a name_open that fails also
                                    detaches */
        int coid = name_open(text, 0);
        all->count[worker]++;
        check(coid != -1 || is_gone(errno) || errno == EINTR);
        if (coid == -1) usleep(500);
        for (int left = rand() % 200; coid != -1 && left && ask(coid, self_coid); left--) take_own_pulses(chid);
        if (coid != -1) check(ConnectDetach(coid) == 0 || errno == EINTR);
        take_own_pulses(chid);
    }
}

/* ---- all */

static pid_t begin(int at) {
    int life = at < SERVERS ? 0 : all->lives;
    check(life < LIVES - 1);
    pid_t child = fork();
    check(child != -1);
    if (child) {
        while (at >= SERVERS && all->life[life].pid != child) usleep(50);
        return child;
    }
    prctl(PR_SET_PDEATHSIG, SIGKILL); /* a test that fails leaves no process */
    worker = at;
    srand((unsigned)getpid());
    if (at < SERVERS) serve();
    own = &all->life[life];
    own->interrupts = at % 2;
    own->pid = getpid();
    all->lives = life + 1;
    ask_on();
    _exit(0);
}

static void end(int at, pid_t child) {
    int status;
    struct life *life = at < SERVERS ? NULL : life_of(child);
    if (life) life->killed = true;
    check(kill(child, SIGKILL) == 0 && waitpid(child, &status, 0) == child);
    check(WIFSIGNALED(status) && WTERMSIG(status) == SIGKILL);
}

/* Waits until each worker has done something. */
static void expect_progress(const pid_t *children) {
    long before[WORKERS];
    time_t start = time(NULL);
    for (int at = 0; at < WORKERS; at++) before[at] = all->count[at];
    for (int at = 0; at < WORKERS; at++) {
        while (all->count[at] == before[at]) {
            check(waitpid(children[at], NULL, WNOHANG) == 0);
            if (time(NULL) > start + PATIENCE) fprintf(stderr, "worker %d does nothing\n", at);
            check(time(NULL) <= start + PATIENCE);
            usleep(100);
        }
    }
}

int main(int count, char **words) {
    pid_t children[WORKERS];
    bool stopped[WORKERS] = {false};
    long kills = 0, stops = 0;
    if (count != 3) return 2;
    all = mmap(NULL, sizeof *all, PROT_READ | PROT_WRITE, MAP_SHARED | MAP_ANONYMOUS | MAP_NORESERVE, -1, 0);
    check(all != MAP_FAILED);
    srand((unsigned)atoi(words[2]));
    time_t until = time(NULL) + atoi(words[1]);
    for (int at = 0; at < WORKERS; at++) children[at] = begin(at);
    while (time(NULL) < until && all->lives < LIVES - 1) {
        int at = rand() % WORKERS;
        usleep((useconds_t)(rand() % 10000));
        check(waitpid(children[at], NULL, WNOHANG) == 0);
        if (stopped[at] || rand() % 3 == 0) {
            check(kill(children[at], stopped[at] ? SIGCONT : SIGSTOP) == 0);
            stops += stopped[at];
            stopped[at] = !stopped[at];
        } else {
            end(at, children[at]);
            children[at] = begin(at);
            kills++;
        }
    }
    for (int at = 0; at < WORKERS; at++) check(kill(children[at], SIGCONT) == 0);
    expect_progress(children);
    for (int at = 0; at < WORKERS; at++) end(at, children[at]);
    printf("%ld kills, %ld stops, %d clients\n", kills, stops, all->lives);
    return 0;
}
