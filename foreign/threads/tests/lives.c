/* Kernels that are opened and joined; threads that end, are cancelled, fork or are interrupted. */
#include "tests.h"

#include <sys/wait.h>

void not_joined(void) {
    char room[8];
    struct _msg_info info;
    struct sched_param param = {.sched_priority = 1};
    uint64_t time = 1;
    fails(ChannelCreate(0), EPERM);
    fails(ChannelDestroy(1), EPERM);
    fails(ConnectAttach(0, 1, 1, 0, 0), EPERM);
    fails(ConnectDetach(1), EPERM);
    fails(ConnectDetach(0x40000001), EPERM);
    fails(MsgSend(1, NULL, 0, NULL, 0), EPERM);
    fails(MsgReceive(1, room, 8, &info), EPERM);
    fails(MsgReceivePulse(1, room, 8, &info), EPERM);
    fails(MsgReply(1, 0, NULL, 0), EPERM);
    fails(MsgError(1, 0), EPERM);
    fails(MsgRead(1, room, 8, 0), EPERM);
    fails(MsgWrite(1, room, 8, 0), EPERM);
    fails(MsgInfo(1, &info), EPERM);
    fails(MsgInfo(1, NULL), EPERM);
    fails(MsgSendPulse(1, -1, 0, 0), EPERM);
    fails(MsgSendPulse(1, 0, 0, 0), EPERM);
    fails(SchedSet(0, 0, SCHED_FIFO, &param), EPERM);
    fails(TimerTimeout(CLOCK_MONOTONIC, 0, NULL, &time, NULL), EPERM);
    fails(neutrino_leave(), EPERM);
    fails(neutrino_unblock(0), EPERM);
    fails(neutrino_state(0), EPERM);
    fails(neutrino_priority(0), EPERM);
}

static void *join_once(void *argument) {
    int result = neutrino_join(argument, 1);
    return (void *)(intptr_t)(result ? -errno : 0);
}

void joins(void) {
    neutrino *kernel = neutrino_open(few, 4);
    fails(neutrino_join(kernel, 9), ESRCH);
    fails(neutrino_join(kernel, 0), ESRCH);
    fails(neutrino_join(kernel, -1), ESRCH);
    fails(neutrino_join(kernel, 256), ESRCH);
    fails(neutrino_join(kernel, 255), ESRCH); /* the number of a clock, or of nobody */
    check(neutrino_join(kernel, 1) == 0);
    fails(neutrino_join(kernel, 2), EBUSY);
    check(result_of(start(join_once, kernel)) == -EBUSY);
    fails(neutrino_close(kernel), EBUSY);
    check(neutrino_leave() == 0);
    check(result_of(start(join_once, kernel)) == 0); /* and the thread ends while it is joined */
    check(neutrino_join(kernel, 1) == 0);
    close_few(kernel);
}

void versions(void) {
    check(!neutrino_open_version(NEUTRINO_VERSION + 1, few, 4) && errno == ENOEXEC);
    check(!neutrino_open_version(0, few, 4) && errno == ENOEXEC);
}

void rosters(void) {
    const struct neutrino_thread twice[] = {{1, 1, 1}, {1, 2, 3}}, idle[] = {{1, 1, 0}}, zero[] = {{0, 1, 1}};
    const struct neutrino_thread none[] = {{1, 0, 1}};
    struct neutrino_thread many[65];
    check(!neutrino_open(twice, 2) && errno == EINVAL);
    check(!neutrino_open(idle, 1) && errno == EINVAL);
    check(!neutrino_open(zero, 1) && errno == EINVAL);
    check(!neutrino_open(none, 1) && errno == EINVAL);
    check(!neutrino_open(none, 0) && errno == EINVAL);
    for (int at = 0; at < 65; at++) many[at] = (struct neutrino_thread){(uint8_t)(255 - at), 255, 255};
    check(!neutrino_open(many, 65) && errno == EAGAIN);
    check(!neutrino_open(many, 64) && errno == EAGAIN); /* and one clock */
    neutrino *kernel = neutrino_open(many, 63);
    check(kernel && neutrino_join(kernel, 255 - 62) == 0 && ChannelCreate(0) > 0);
    close_few(kernel);
}

static void *serve_other(void *argument) {
    struct job *job = argument;
    char room[8];
    check(neutrino_join(job->kernel, 1) == 0);
    for (int round = 0; round < 500; round++) {
        int rcvid = MsgReceive(job->chid, room, sizeof room, NULL);
        check(rcvid > 0 && MsgReply(rcvid, job->states, room, 5) == 0);
    }
    check(neutrino_leave() == 0);
    return NULL;
}

/* Two kernels at the same time, with the same numbers. */
void two_kernels(void) {
    struct job servers[2];
    pthread_t running[2];
    for (int at = 0; at < 2; at++) {
        neutrino *kernel = open_few();
        for (int more = 0; more < at; more++) ChannelCreate(0);
        servers[at] = (struct job){.kernel = kernel, .chid = ChannelCreate(0), .states = 70 + at};
        check(neutrino_leave() == 0);
        running[at] = start(serve_other, &servers[at]);
    }
    for (int round = 0; round < 1000; round++) {
        struct job job = {.kernel = servers[round % 2].kernel, .tid = 2, .chid = servers[round % 2].chid};
        check((long)send_once(&job) == 70 + round % 2 && memcmp(job.reply, "hello", 5) == 0);
    }
    for (int at = 0; at < 2; at++) {
        result_of(running[at]);
        check(neutrino_close(servers[at].kernel) == 0);
    }
}

/* In a child each function on the kernel is refused, even if another thread had the lock at the fork. */
static void in_the_child(neutrino *kernel) {
    alarm(300); /* ends a child that hangs */
    fails(ChannelCreate(0), EPERM);
    fails(MsgSend(1, NULL, 0, NULL, 0), EPERM);
    fails(neutrino_leave(), EPERM);
    fails(neutrino_join(kernel, 3), EPERM);
    fails(neutrino_shutdown(kernel), EPERM);
    fails(neutrino_close(kernel), EPERM);
    neutrino *own = neutrino_open(few, 4);
    check(own && neutrino_join(own, 1) == 0 && ChannelCreate(0) > 0);
    check(neutrino_leave() == 0 && neutrino_close(own) == 0);
    _exit(0);
}

static _Atomic int goes_on;

static void *call_on(void *argument) {
    check(neutrino_join(argument, 2) == 0);
    while (atomic_load(&goes_on)) check(neutrino_state(0) == STATE_READY);
    check(neutrino_leave() == 0);
    return NULL;
}

void forks(void) {
    neutrino *kernel = open_few();
    atomic_store(&goes_on, 1);
    pthread_t other = start(call_on, kernel);
    for (int turn = 0; turn < 20; turn++) {
        int status;
        pid_t child = fork();
        if (child == 0) in_the_child(kernel);
        check(waitpid(child, &status, 0) == child && WIFEXITED(status) && WEXITSTATUS(status) == 0);
        check(neutrino_state(0) == STATE_READY);
    }
    atomic_store(&goes_on, 0);
    result_of(other);
    close_few(kernel);
}

static void *receive_cancelled(void *argument) {
    struct job *job = argument;
    char room[8];
    int old;
    pthread_setcanceltype(PTHREAD_CANCEL_ASYNCHRONOUS, &old);
    check(neutrino_join(job->kernel, job->tid) == 0);
    int rcvid = MsgReceive(job->chid, room, sizeof room, NULL);
    check(rcvid > 0 && memcmp(room, "hello", 5) == 0);
    for (;;) pthread_testcancel();
    return NULL;
}

/* A thread that is cancelled while it waits is cancelled after its call, and leaves. Then another thread
 * can join with its number. */
void cancels(void) {
    neutrino *kernel = open_few();
    struct job waits = {.kernel = kernel, .tid = 3}, sends = {.kernel = kernel, .tid = 4};
    become(kernel, 2);
    waits.chid = ChannelCreate(0);
    pthread_t waiting = start(receive_cancelled, &waits);
    until_state(3, STATE_RECEIVE);
    check(pthread_cancel(waiting) == 0);
    usleep(20000);
    check(neutrino_state(3) == STATE_RECEIVE); /* it continues to wait */
    become(kernel, 4);
    sends.coid = ConnectAttach(0, CLIENTS, waits.chid, 0, 0);
    check(sends.coid > 0 && neutrino_leave() == 0);
    pthread_t sending = start(send_once, &sends);
    result_of(waiting);                   /* the thread never ends if it is not cancelled */
    check(neutrino_join(kernel, 3) == 0); /* its number is free, and its process still holds the message */
    struct job again = {.kernel = kernel, .tid = 2, .chid = waits.chid, .states = _NTO_TIMEOUT_RECEIVE};
    check(result_of(start(receive_once, &again)) == -ETIMEDOUT);
    check(neutrino_shutdown(kernel) == 0 && result_of(sending) == -ESRCH);
    close_few(kernel);
}

static void *exit_joined(void *argument) {
    check(neutrino_join(argument, 2) == 0);
    check(ChannelCreate(0) > 0);
    pthread_exit(NULL);
}

void exits(void) {
    neutrino *kernel = neutrino_open(few, 4);
    for (int turn = 0; turn < 50; turn++) result_of(start(exit_joined, kernel));
    check(neutrino_close(kernel) == 0); /* no thread is joined now */
}

static neutrino *handled;
static _Atomic int deadlocks;

static void call_within(int number) {
    (void)number;
    int before = errno;
    if (ChannelCreate(0) == -1 && errno == EDEADLK && neutrino_leave() == -1 && errno == EDEADLK &&
        neutrino_shutdown(handled) == -1 && errno == EDEADLK && neutrino_close(handled) == -1 && errno == EDEADLK)
        atomic_fetch_add(&deadlocks, 1);
    errno = before;
}

static void shut_down_within(int number) {
    (void)number;
    int before = errno;
    if (neutrino_shutdown(handled) == -1 && errno == EDEADLK) atomic_fetch_add(&deadlocks, 1);
    errno = before;
}

static void *shut_down_on(void *kernel) {
    while (atomic_load(&goes_on)) check(neutrino_shutdown(kernel) == 0);
    return NULL;
}

static void handle(void (*handler)(int)) {
    struct sigaction action;
    memset(&action, 0, sizeof action);
    action.sa_handler = handler;
    atomic_store(&deadlocks, 0);
    check(sigaction(SIGUSR1, &action, NULL) == 0);
}

/* A thread that has not joined is also refused each function that would take the lock that it has. */
static void signals_unjoined(void) {
    handled = neutrino_open(few, 4);
    handle(shut_down_within);
    atomic_store(&goes_on, 1);
    pthread_t other = start(shut_down_on, handled);
    while (atomic_load(&deadlocks) < 20) {
        check(pthread_kill(other, SIGUSR1) == 0);
        usleep(50);
    }
    atomic_store(&goes_on, 0);
    result_of(other);
    check(neutrino_close(handled) == 0);
}

/* A handler that interrupts a call is refused a call, and the interrupted call continues. */
void signals(void) {
    signals_unjoined();
    neutrino *kernel = handled = open_few();
    handle(call_within);
    struct job job = {.kernel = kernel, .tid = 2, .chid = ChannelCreate(0)};
    pthread_t client = start(send_once, &job);
    until_state(2, STATE_SEND);
    for (int turn = 1; turn <= 20; turn++) {
        check(pthread_kill(client, SIGUSR1) == 0);
        while (atomic_load(&deadlocks) < turn) usleep(50);
    }
    char room[8];
    check(MsgReply(MsgReceive(job.chid, room, 8, NULL), 4, NULL, 0) == 0 && result_of(client) == 4);
    close_few(kernel);
}

enum { LONG_REPLY = 100000 };

static void *send_with_room(void *argument) {
    struct job *job = argument;
    char *reply = malloc(LONG_REPLY);
    check(reply && neutrino_join(job->kernel, 2) == 0);
    int coid = ConnectAttach(0, SERVER, job->chid, 0, 0);
    check(MsgSend(coid, "hello", 5, reply, LONG_REPLY) == 3 && reply[LONG_REPLY - 1] == 'e');
    check(neutrino_leave() == 0);
    free(reply);
    return NULL;
}

/* Room that was refused to one call is not counted for the calls of others. */
static void send_long_after(neutrino *kernel, int chid) {
    struct job job = {.kernel = kernel, .chid = chid};
    char room[8];
    pthread_t client = start(send_with_room, &job);
    int rcvid = MsgReceive(chid, room, sizeof room, NULL);
    check(rcvid > 0 && MsgWrite(rcvid, "e", 1, LONG_REPLY - 1) == 1 && MsgReply(rcvid, 3, NULL, 0) == 0);
    result_of(client);
}

/* Buffers for which the allocator has no memory: the call fails, and the next call is made as usual. */
void memory(void) {
    neutrino *kernel = open_few();
    static char buffer[8];
    int chid = ChannelCreate(0), coid = ConnectAttach(0, 0, chid, 0, 0);
    fails(MsgReceive(chid, buffer, SIZE_MAX, NULL), ENOMEM);
    fails(MsgReceive(chid, buffer, SIZE_MAX / 2, NULL), ENOMEM);
    fails(MsgSend(coid, buffer, 4, buffer, SIZE_MAX / 2), ENOMEM);
    fails(MsgSend(coid, buffer, 4, buffer, SIZE_MAX), ENOMEM);
    check(neutrino_state(0) == STATE_READY && MsgSendPulse(coid, -1, 1, 1) == 0);
    check(MsgReceive(chid, buffer, sizeof buffer, NULL) == 0);
    send_long_after(kernel, chid);
    close_few(kernel);
}
