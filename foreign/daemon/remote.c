/* The layer's calls in the daemon's kernel, and which kernel a call is for. Tested, not proved. */
#include <stdio.h>

static struct neutrino remote_kernel; /* only its process is used */
static bool is_remote;
static int program_socket = -1, program_scoid;
static bool reconnects;             /* after the daemon's end the program connects to the next one */
static int files[UINT8_MAX + 1][2]; /* sockets and bells by tid, for a forked child to close; -1: none */
/* The greatest numbers that the program has had, for the next daemon. */
static volatile int last_chid, last_coid, last_rcvid;
static pthread_mutex_t asking = PTHREAD_MUTEX_INITIALIZER; /* of program_socket and files */

static _Thread_local struct place own_place;
static _Thread_local uint32_t calls;
static _Thread_local volatile sig_atomic_t open_call; /* the number of the call that waits, or 0 */

/* ---- after the daemon's end */

static int open_program_socket(void);
static int open_thread(int tid, int priority);
static void note_files(int tid, int socket, int bell);

static bool has_ended(int fd) {
    char byte;
    ssize_t length = recv(fd, &byte, 1, MSG_PEEK | MSG_DONTWAIT);
    return length == 0 || (length == -1 && errno != EAGAIN && errno != EINTR);
}

/* Connects the program to the daemon that runs now, unless another thread has already done that.
 * Returns 0, or -1 and sets errno. */
static int reopen_program(void) {
    pthread_mutex_lock(&asking);
    int old = program_socket, scoid = has_ended(old) ? open_program_socket() : program_scoid, error = errno;
    if (scoid != -1) program_scoid = scoid;
    if (program_socket != old) close(old);
    pthread_mutex_unlock(&asking);
    return scoid == -1 ? fail(error) : 0;
}

/* Connects the program and the calling thread again. A call that finds the daemon gone fails, because nobody
 * knows its outcome. The thread's next call comes here. */
static int connect_again(void) {
    if (reopen_program()) return -1;
    if (self) {
        note_files(self->tid, -1, -1);
        close_box();
        if (open_thread(self->tid, own.priority)) return -1;
    }
    own.is_lost = false;
    return 0;
}

/* ---- asking */

/* Sends a request by the thread's box, or by the program's socket if the thread hasn't joined. */
static long ask_once(struct wire_ask *ask, const struct iovec sent[2], struct wire_answer *answer, struct iovec room) {
    long result;
    ask->sent_len = (uint32_t)sent[0].iov_len;
    if (own.is_lost && reconnects && connect_again()) return -1;
    if (self) {
        open_call = (sig_atomic_t)ask->call;
        result = ask_by_box(ask, sent, answer, room);
        open_call = 0;
    } else {
        pthread_mutex_lock(&asking);
        result = exchange(program_socket, ask, sent[0], answer, room, NULL);
        pthread_mutex_unlock(&asking);
    }
    if (result == -1 && errno == ESHUTDOWN) own.is_lost = true;
    return result;
}

/* Sends a request, and waits for the answer. Returns the result, or fails with the daemon's error. */
static long ask_with(struct wire_ask *ask, const struct iovec sent[2], struct wire_answer *answer, struct iovec room) {
    int cancel, ignored;
    if (inside || program_socket == -1) return fail(inside ? EDEADLK : ESHUTDOWN);
    pthread_setcancelstate(PTHREAD_CANCEL_DISABLE, &cancel);
    inside++;
    if (self && self->interruptible && cancel == PTHREAD_CANCEL_ENABLE) ask->flags |= WIRE_CANCELS;
    long result = ask_once(ask, sent, answer, room);
    int error = errno;
    inside--;
    pthread_setcancelstate(cancel, &ignored);
    errno = error;
    return result;
}

/* Sends a request with one buffer of bytes, which may be empty. */
static long ask_daemon(struct wire_ask *ask, struct iovec bytes, struct wire_answer *answer, struct iovec room) {
    return ask_with(ask, (struct iovec[2]){bytes, {NULL, 0}}, answer, room);
}

static long ask_plainly(struct wire_ask *ask) {
    struct wire_answer answer;
    return ask_daemon(ask, (struct iovec){NULL, 0}, &answer, (struct iovec){NULL, 0});
}

static long ask_about(uint32_t op, int number) { return ask_plainly(&(struct wire_ask){.op = op, .number = number}); }

/* ---- calls */

/* Keeps the results that a connection to the next daemon needs. */
static void keep_result(const struct call *c, int result) {
    int kind = c->request.kind, coid = result & ~SCOID;
    if (kind == BALSAEUCHRE_PRIORITY_SET && c->request.target == self->tid) own.priority = c->request.priority;
    if (kind == BALSAEUCHRE_CHANNEL_CREATE && result > last_chid) last_chid = result;
    if (kind == BALSAEUCHRE_CONNECT_ATTACH && coid > last_coid) last_coid = coid;
    if (kind == BALSAEUCHRE_RECEIVE && result > last_rcvid) last_rcvid = result;
}

/* Makes a call with the fields that the layer's struct call doesn't have, and waits for its completion. */
static long call_with(struct call *c, uint64_t value, pid_t pid, unsigned flags) {
    struct wire_answer answer = {.error = 0};
    bool sends = c->request.kind == BALSAEUCHRE_SEND;
    struct iovec sent[2] = {{(void *)(uintptr_t)c->sent, c->sent_len}, {c->room, sends ? c->room_len : 0}};
    if (refuse_call()) return -1;
    struct wire_ask ask = {.op = OP_CALL,
                           .call = ++calls ? calls : ++calls,
                           .number = c->number,
                           .pid = pid,
                           .states = self->states,
                           .flags = flags | (c->own_priority ? WIRE_OWN_PRIORITY : 0),
                           .time = self->time,
                           .value = value,
                           .room_len = (uint32_t)c->room_len,
                           .request = c->request};
    self->states = 0;
    long result = ask_with(&ask, sent, &answer, (struct iovec){c->room, c->room_len});
    if (c->info && answer.info.pid && result != -1) *c->info = answer.info;
    if (result != -1 && reconnects) keep_result(c, (int)result);
    return result;
}

static long call_remote(struct call *c) {
    const balsaeuchre_request *r = &c->request;
    if ((!c->sent && c->sent_len) || (!c->room && c->room_len)) return fail(EFAULT);
    bool sends = r->kind == BALSAEUCHRE_SEND;
    if (c->sent_len > WIRE_MOST || (sends && c->room_len > WIRE_MOST)) return fail(EMSGSIZE);
    if (c->room_len > WIRE_MOST) c->room_len = WIRE_MOST; /* no message is longer */
    return call_with(c, r->kind == BALSAEUCHRE_PULSE ? (uint64_t)(int64_t)r->value : r->flags, 0, 0);
}

static long call_long(struct call *c) { return is_remote ? call_remote(c) : call_here(c); }

/* ---- joining */

enum { PATH = sizeof((struct sockaddr_un *)0)->sun_path };

static char system_word[PATH]; /* BALSAEUCHRE_SYSTEM, as it was when the kernel was opened */
static char system_path[PATH]; /* its absolute path: the environment and the folder may change */

/* Runs in a forked child, which has its parent's sockets, but not its parent's threads. */
static void forget_sockets(void) {
    if (!is_remote) return;
    for (int at = 0; at < 2 * (UINT8_MAX + 1); at++) {
        if (files[at / 2][at % 2] != -1) close(files[at / 2][at % 2]);
        files[at / 2][at % 2] = -1;
    }
    if (program_socket != -1) close(program_socket);
    program_socket = own.socket = own.bell = -1;
    own.box = NULL; /* a child doesn't have it */
    own.is_lost = false;
    open_call = 0;
    /* If a handler that interrupted a call has forked, the child is still inside the
     * call. It may make no other. */
    self = NULL;
    is_remote = false;
    pthread_mutex_init(&asking, NULL);
}

/* Keeps the absolute path of the daemon's socket. A forked child opens it again, and
 * may be in another folder. */
static int keep_path(const char *word) {
    char folder[PATH] = "";
    if (strcmp(word, system_word) == 0) return 0;
    if (*word != '/' && !getcwd(folder, sizeof folder)) return fail(errno == ERANGE ? ENAMETOOLONG : errno);
    if (strlen(folder) + strlen(word) + 1 >= PATH) return fail(ENAMETOOLONG);
    snprintf(system_path, PATH, *word == '/' ? "%s%s" : "%s/%s", folder, word);
    strcpy(system_word, word);
    return 0;
}

/* Reports on standard error, once, that no daemon can be reached. Returns null. */
static neutrino *refuse_path(const char *path) {
    static atomic_bool said;
    int error = errno;
    if (error != EPERM && !atomic_exchange(&said, true)) /* may_ask has reported EPERM */
        dprintf(STDERR_FILENO, "balsaeuchre: no balsaeuchred at %s: %s%s\n", path, strerror(error),
                error == ENAMETOOLONG ? ": its absolute path has at most 107 bytes" : "");
    errno = error == ENOENT || error == ECONNREFUSED ? ESHUTDOWN : error;
    return NULL;
}

/* Reports on standard error, once, why the daemon refuses this program. places is the
 * number of places for programs. */
static void say_refusal(int error, unsigned places) {
    static atomic_bool said;
    const char *path = system_path;
    if (error == ESHUTDOWN || atomic_exchange(&said, true)) return;
    if (error == EAGAIN && places)
        dprintf(STDERR_FILENO,
                "balsaeuchre: the balsaeuchred at %s has places for %u programs, and all are taken: its "
                "option --processes gives more\n",
                path, places);
    else if (error == ENFILE)
        dprintf(STDERR_FILENO,
                "balsaeuchre: the balsaeuchred at %s can open no further file: start it with a greater "
                "limit (ulimit -n)\n",
                path);
    else if (error == EACCES)
        dprintf(STDERR_FILENO,
                "balsaeuchre: the balsaeuchred at %s takes no programs of user %u: its option --group "
                "names a group that it takes\n",
                path, geteuid());
    else if (error == ENOEXEC)
        dprintf(STDERR_FILENO,
                "balsaeuchre: the balsaeuchred at %s is of another release: expected a daemon that "
                "takes version %d\n",
                path, WIRE_VERSION);
    else
        dprintf(STDERR_FILENO, "balsaeuchre: the balsaeuchred at %s refuses this program: %s\n", path, strerror(error));
}

/* Opens the program's socket. Returns the program's scoid, or -1 and sets errno. */
static int open_program_socket(void) {
    struct iovec none = {NULL, 0};
    struct wire_answer answer = {.error = 0};
    struct wire_ask ask = {
        .op = OP_PROCESS, .number = WIRE_VERSION, .states = last_chid, .flags = (unsigned)last_coid, .pid = last_rcvid};
    int fd = connect_to(system_path);
    if (fd == -1) return refuse_path(system_path) ? 0 : -1;
    int scoid = (int)exchange(fd, &ask, none, &answer, none, NULL), error = errno;
    if (scoid != -1) {
        program_socket = fd;
        return scoid;
    }
    say_refusal(error, answer.count);
    close(fd);
    return fail(error);
}

static neutrino *open_remote(const char *word) {
    static bool prepared;
    if (keep_path(word)) return refuse_path(word);
    if (!prepared) {
        pthread_atfork(NULL, NULL, forget_sockets);
        memset(files, -1, sizeof files);
    }
    prepared = true;
    const char *reconnect = secure_getenv("BALSAEUCHRE_RECONNECT");
    reconnects = reconnect && strcmp(reconnect, "1") == 0;
    program_scoid = open_program_socket();
    if (program_scoid == -1) return NULL;
    remote_kernel.process = getpid();
    is_remote = true;
    return &remote_kernel;
}

neutrino *neutrino_open_version(uint32_t version, const struct neutrino_thread *threads, size_t count) {
    const char *path = secure_getenv("BALSAEUCHRE_SYSTEM");
    return path && *path ? open_remote(path) : open_here(version, threads, count);
}

/* Notes the files of a thread. -1: none. */
static void note_files(int tid, int socket, int bell) {
    pthread_mutex_lock(&asking);
    files[tid][0] = socket;
    files[tid][1] = bell;
    pthread_mutex_unlock(&asking);
}

enum { USUAL_PRIORITY = 10, SECOND = 1000000000 };

/* A thread waits for a place. Reports this on standard error, once, when the thread has waited for a
 * second. */
static void say_waiting(unsigned places) {
    static atomic_bool said;
    static _Thread_local uint64_t since;
    uint64_t time = now();
    if (!since || time - since > 20 * (uint64_t)SECOND) since = time; /* a new wait */
    if (!places || time - since < SECOND || atomic_exchange(&said, true)) return;
    dprintf(STDERR_FILENO,
            "balsaeuchre: a thread waits for a place: this program has %u in the balsaeuchred at %s, "
            "whose option --threads gives more\n",
            places, system_path);
}

/* Opens the calling thread's box, and notes its files. Returns 0, or -1 and sets errno. */
static int open_thread(int tid, int priority) {
    struct wire_ask ask = {
        .op = OP_THREAD, .number = tid, .value = (uint64_t)priority, .pid = (int32_t)syscall(SYS_gettid)};
    struct wire_answer answer = {.error = 0};
    if (open_box(system_path, &ask, &answer)) {
        int error = errno;
        if (error == EAGAIN) say_waiting(answer.count);
        return fail(error == ENOENT || error == ECONNREFUSED ? ESHUTDOWN : error);
    }
    note_files(tid, own.socket, own.bell);
    return 0;
}

static int join_remote(int tid) {
    if (tid < 1 || tid > UINT8_MAX) return fail(ESRCH);
    own.priority = USUAL_PRIORITY;
    if (open_thread(tid, own.priority)) {
        bool is_unknown = errno == ESRCH || errno == ESHUTDOWN; /* to the daemon that runs now */
        if (!is_unknown || !reconnects || reopen_program() || open_thread(tid, own.priority)) return -1;
    }
    own.is_lost = false;
    own_place = (struct place){.tid = (uint8_t)tid};
    self = &own_place;
    kernel = &remote_kernel;
    return 0;
}

int neutrino_join(neutrino *k, int tid) {
    if (k != &remote_kernel) return join_here(k, tid);
    return k->process != getpid() ? fail(EPERM) : self ? fail(EBUSY) : join_remote(tid);
}

int neutrino_leave(void) {
    if (!is_remote) return leave_here();
    if (refuse_call()) return -1;
    note_files(self->tid, -1, -1);
    shutdown(own.socket, SHUT_RDWR); /* a forked child may also have it for a moment */
    close_box();
    self = NULL;
    return 0;
}

int neutrino_shutdown(neutrino *k) { return k == &remote_kernel ? fail(ENOTSUP) : shutdown_here(k); }

int neutrino_close(neutrino *k) { return k == &remote_kernel ? fail(ENOTSUP) : close_here(k); }

int neutrino_look(neutrino *k, struct neutrino_blocked *all) {
    return k == &remote_kernel ? fail(ENOTSUP) : look_here(k, all);
}

/* ---- interruptions */

/* Asks the daemon to end the open call of this thread, which the daemon may not have taken yet. */
void neutrino_interrupt(void) {
    if (!is_remote) {
        interrupt_here();
        return;
    }
    if (!self || !self->interruptible || !open_call) return;
    atomic_store(&own.box->given_up, (uint32_t)open_call);
    ring();
}

int neutrino_cancel(neutrino *k, int tid) {
    return k == &remote_kernel ? (int)ask_about(OP_CANCEL, tid) : cancel_here(k, tid);
}
