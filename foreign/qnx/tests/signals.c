/* Signals and cancellations that end calls. */
#include "tests.h"

#include <setjmp.h>
#include <sys/time.h>
#include <sys/wait.h>

static _Atomic int handled, chid_of_all, ends;

static void count(int signo) {
    (void)signo;
    atomic_fetch_add(&handled, 1);
}

static void handle(int signo, void (*handler)(int), int flags) {
    struct sigaction action;
    memset(&action, 0, sizeof action);
    action.sa_handler = handler;
    action.sa_flags = flags;
    check(sigaction(signo, &action, NULL) == 0);
}

static void *receive_once(void *argument) {
    char room[8];
    int rcvid = MsgReceive(*(int *)argument, room, sizeof room, NULL);
    return (void *)(intptr_t)(rcvid == -1 ? -errno : rcvid);
}

/* Signals to SEND-, REPLY- and RECEIVE-blocked threads, with and without SA_RESTART. With the flag UNBLOCK
 * the server decides. */
void interrupted(void) {
    int chid = ChannelCreate(0), coid = attach(chid), told = ChannelCreate(_NTO_CHF_UNBLOCK), over = attach(told);
    struct client client;
    struct _pulse pulse;
    for (int turn = 0; turn < 4; turn++) {
        if (turn < 2) handle(SIGUSR1, count, turn ? SA_RESTART : 0);
        else check(signal(SIGUSR1, count) == count);
        begin_send(&client, coid);
        check(pthread_kill(client.thread, SIGUSR1) == 0);
        end_send(&client);
        check(client.error == EINTR);
        begin_send(&client, coid);
        int rcvid = receive(chid);
        check(pthread_kill(client.thread, SIGUSR1) == 0);
        end_send(&client);
        check(client.error == EINTR);
        fails(MsgReply(rcvid, 0, NULL, 0), ESRCH);
        begin_send(&client, over);
        rcvid = receive(told);
        check(pthread_kill(client.thread, SIGUSR1) == 0);
        check(MsgReceivePulse(told, &pulse, sizeof pulse, NULL) == 0 && pulse.code == _PULSE_CODE_UNBLOCK);
        check(pulse.value.sival_int == rcvid && neutrino_state(client.tid) == STATE_REPLY);
        check(pthread_kill(client.thread, SIGUSR1) == 0); /* a second signal changes nothing */
        check(MsgReply(rcvid, 3, NULL, 0) == 0);
        end_send(&client);
        check(client.status == 3);
        pthread_t receiver = start(receive_once, &chid);
        until_state(2, STATE_RECEIVE);
        check(pthread_kill(receiver, SIGUSR1) == 0 && result_of(receiver) == -EINTR);
    }
    check(atomic_load(&handled) >= 12 && signal(SIGUSR1, SIG_DFL) == count);
    check(ConnectDetach(coid) == 0 && ChannelDestroy(chid) == 0);
    check(ConnectDetach(over) == 0 && ChannelDestroy(told) == 0);
}

static _Atomic int seen_signo;

static void with_info(int signo, siginfo_t *info, void *context) {
    check(info->si_signo == signo && context);
    atomic_store(&seen_signo, signo);
}

/* The program gets back the handlers and flags that it set. */
void handlers(void) {
    struct sigaction action, old;
    memset(&action, 0, sizeof action);
    check(signal(SIGUSR2, SIG_DFL) != SIG_ERR && signal(SIGUSR2, count) == SIG_DFL);
    action.sa_sigaction = with_info;
    action.sa_flags = SA_SIGINFO | SA_NODEFER;
    sigaddset(&action.sa_mask, SIGUSR1);
    check(sigaction(SIGUSR2, &action, &old) == 0 && old.sa_handler == count && !(old.sa_flags & SA_SIGINFO));
    check(sigaction(SIGUSR2, NULL, &old) == 0 && old.sa_sigaction == with_info && old.sa_flags & SA_SIGINFO);
    check(old.sa_flags & SA_NODEFER && sigismember(&old.sa_mask, SIGUSR1) == 1);
    check(raise(SIGUSR2) == 0 && atomic_load(&seen_signo) == SIGUSR2);
    check(signal(SIGUSR2, SIG_IGN) != SIG_ERR && raise(SIGUSR2) == 0 && signal(SIGUSR2, SIG_DFL) == SIG_IGN);
    fails(sigaction(0, &action, NULL), EINVAL);
    fails(sigaction(65, NULL, &old), EINVAL);
    fails(sigaction(SIGKILL, &action, NULL), EINVAL);
    check(signal(SIGKILL, count) == SIG_ERR && errno == EINVAL && signal(0, count) == SIG_ERR);
    check(signal(SIGUSR2, SIG_ERR) == SIG_ERR && sigaction(SIGUSR2, NULL, &old) == 0 && old.sa_handler == SIG_DFL);
}

static int over_all;
static _Atomic int refusals;

static void call_within(int signo) {
    int before = errno;
    if (ChannelCreate(0) == -1 && errno == EDEADLK && MsgSend(over_all, "", 1, NULL, 0) == -1 && errno == EDEADLK)
        atomic_fetch_add(&refusals, 1);
    check(MsgSendPulse(over_all, 20, 7, signo) == 0);
    errno = before;
}

static void send_within(int signo) {
    check(MsgSendPulse(over_all, SIGEV_PULSE_PRIO_INHERIT, 8, signo) == 0);
    fails(MsgSendPulse(over_all ^ 1, 20, 8, signo), EBADF);
}

/* A handler that interrupted a call is refused calls, but its pulse is sent: by the front's own thread, with
 * that thread's priority. The pulse of a handler that interrupted no call is sent in the same way. */
void in_handlers(void) {
    struct _pulse pulse;
    int chid = ChannelCreate(0), other = ChannelCreate(0);
    over_all = attach(chid);
    handle(SIGUSR1, call_within, 0);
    for (int turn = 1; turn <= 20; turn++) {
        pthread_t receiver = start(receive_once, &other);
        until_state(2, STATE_RECEIVE);
        check(pthread_kill(receiver, SIGUSR1) == 0 && result_of(receiver) == -EINTR && atomic_load(&refusals) == turn);
        check(MsgReceivePulse(chid, &pulse, sizeof pulse, NULL) == 0 && pulse.code == 7);
        check(pulse.value.sival_int == SIGUSR1);
    }
    check(setprio(0, 33) > 0 && signal(SIGUSR2, send_within) != SIG_ERR && raise(SIGUSR2) == 0);
    check(MsgReceivePulse(chid, &pulse, sizeof pulse, NULL) == 0 && pulse.code == 8 && getprio(0) == 10);
    check(signal(SIGUSR2, SIG_DFL) == send_within && setprio(0, 33) > 0 && MsgSendPulse(over_all, -1, 9, 0) == 0);
    check(MsgReceivePulse(chid, &pulse, sizeof pulse, NULL) == 0 && pulse.code == 9 && getprio(0) == 33);
    check(signal(SIGUSR1, SIG_DFL) == call_within && ConnectDetach(over_all) == 0);
    check(ChannelDestroy(chid) == 0 && ChannelDestroy(other) == 0);
}

static sigjmp_buf left;

static void jump(int signo) { siglongjmp(left, signo); }

static void jump_from_within(int signo) {
    (void)signo;
    raise(SIGUSR2);
}

/* Sends a pulse from further down the stack than the handlers were. */
static __attribute__((noinline)) void send_deep(void) {
    volatile char deep[20000];
    deep[0] = 9;
    check(MsgSendPulse(over_all, -1, deep[0], 0) == 0);
}

/* Leaves handlers by a jump, and sends a pulse. The pulse has the thread's own priority. */
static void send_after_jump(int chid, void (*first)(int), int flags) {
    struct _pulse pulse;
    handle(SIGUSR1, first, flags);
    handle(SIGUSR2, jump, flags);
    if (!sigsetjmp(left, 1)) raise(SIGUSR1);
    check(setprio(0, 33) > 0);
    if (flags & SA_NODEFER) check(MsgSendPulse(over_all, -1, 9, 0) == 0);
    else send_deep();
    check(MsgReceivePulse(chid, &pulse, sizeof pulse, NULL) == 0 && pulse.code == 9 && getprio(0) == 33);
}

/* A jump from an inner handler into the handler that it interrupted leaves only the inner handler. */
static void send_in_outer(int signo) {
    if (!sigsetjmp(left, 1)) raise(SIGUSR2);
    send_within(signo);
}

static void in_outer(int chid) {
    struct _pulse pulse;
    handle(SIGUSR1, send_in_outer, 0);
    handle(SIGUSR2, jump, 0);
    check(setprio(0, 33) > 0 && raise(SIGUSR1) == 0);
    check(MsgReceivePulse(chid, &pulse, sizeof pulse, NULL) == 0 && pulse.code == 8 && getprio(0) == 10);
}

/* A thread is no longer in a handler that it has left by a jump. */
void jumps(void) {
    static char other[65536];
    stack_t stack = {.ss_sp = other, .ss_size = sizeof other}, before;
    int chid = ChannelCreate(0);
    over_all = attach(chid);
    check(sigaltstack(&stack, &before) == 0);
    send_after_jump(chid, jump, 0);
    send_after_jump(chid, jump, SA_ONSTACK);
    send_after_jump(chid, jump, SA_NODEFER);
    send_after_jump(chid, jump, SA_NODEFER | SA_ONSTACK);
    send_after_jump(chid, jump_from_within, 0);
    send_after_jump(chid, jump_from_within, SA_ONSTACK);
    in_outer(chid);
    for (int sent = 0; sent < 1024; sent++) check(MsgSendPulse(over_all, 10, 1, 1) == 0);
    fails(MsgSendPulse(over_all, 10, 1, 1), EAGAIN);
    check(sigaltstack(&before, NULL) == 0 && signal(SIGUSR1, SIG_DFL) != SIG_ERR && signal(SIGUSR2, SIG_DFL) == jump);
    check(setprio(0, 10) > 0 && ConnectDetach(over_all) == 0 && ChannelDestroy(chid) == 0);
}

static const struct itimerval soon = {{0, 0}, {0, 1000}}; /* a millisecond, once */
static _Atomic int forked, forks_wanted;

static void fork_within(int signo) {
    int before = errno, status;
    (void)signo;
    pid_t child = fork();
    if (child == 0) {
        int chid = ChannelCreate(0); /* in a kernel of the child's own, if the handler interrupted no call */
        _exit(chid > 0 || errno == EDEADLK ? 0 : 1);
    }
    check(waitpid(child, &status, 0) == child && WIFEXITED(status) && WEXITSTATUS(status) == 0);
    /* A fork may take longer than the timer: it is set again only now, so that the calls go on between two forks. */
    if (atomic_fetch_add(&forked, 1) + 1 < atomic_load(&forks_wanted)) setitimer(ITIMER_REAL, &soon, NULL);
    errno = before;
}

/* A handler may fork wherever it has interrupted the front. The calls here allocate no memory, since the
 * host's fork waits for the host's allocator. */
void forks_in_handlers(void) {
    struct _server_info info;
    int chid = ChannelCreate(0), wanted = 20 + rounds / 10;
    atomic_store(&forked, 0);
    atomic_store(&forks_wanted, wanted);
    handle(SIGALRM, fork_within, SA_RESTART);
    check(setitimer(ITIMER_REAL, &soon, NULL) == 0);
    while (atomic_load(&forked) < wanted) {
        int coid = attach(chid);
        check(ConnectServerInfo(0, coid, &info) == coid && ConnectFlags(0, coid, 0, 0) == 0);
        check(ConnectDetach(coid) == 0);
    }
    check(signal(SIGALRM, SIG_DFL) == fork_within && ChannelDestroy(chid) == 0);
}

static void *receive_often(void *argument) {
    char room[8];
    (void)argument;
    for (;;) {
        int rcvid = MsgReceive(atomic_load(&chid_of_all), room, sizeof room, NULL);
        if (rcvid == 0) return NULL;
        check(rcvid == -1 && errno == EINTR);
        atomic_fetch_add(&ends, 1);
    }
}

/* Sends many signals to a thread, each when the thread is RECEIVE-blocked. Each ends the thread's call. */
void many_signals(void) {
    int many = 10 * rounds;
    handle(SIGUSR1, count, 0);
    atomic_store(&chid_of_all, ChannelCreate(0));
    int coid = attach(atomic_load(&chid_of_all));
    atomic_store(&handled, 0);
    pthread_t receiver = start(receive_often, NULL);
    for (int sent = 1; sent <= many; sent++) {
        while (neutrino_state(2) != STATE_RECEIVE) sched_yield();
        check(pthread_kill(receiver, SIGUSR1) == 0);
        for (int looks = 0; atomic_load(&ends) < sent; looks++) {
            check(looks < 100000); /* otherwise the signal is lost */
            looks < 1000 ? sched_yield() : usleep(100);
        }
    }
    check(MsgSendPulse(coid, 1, 1, 1) == 0);
    result_of(receiver);
    check(atomic_load(&handled) == many && atomic_load(&ends) == many && signal(SIGUSR1, SIG_DFL) == count);
    check(ConnectDetach(coid) == 0 && ChannelDestroy(atomic_load(&chid_of_all)) == 0);
}

static void clean(void *argument) { atomic_store((_Atomic int *)argument, 1); }

static _Atomic int cleaned;

static void *blocked_receive(void *chid) {
    char room[8];
    pthread_cleanup_push(clean, &cleaned);
    MsgReceive(*(int *)chid, room, sizeof room, NULL);
    pthread_cleanup_pop(0);
    return NULL;
}

static void *blocked_sendv(void *coid) {
    char room[8];
    iov_t parts[2] = {{room, 4}, {room + 4, 4}};
    MsgSendv(*(int *)coid, parts, 2, parts, 2);
    return NULL;
}

static void *not_cancellable(void *chid) {
    char room[8];
    int ignored;
    pthread_setcancelstate(PTHREAD_CANCEL_DISABLE, &ignored);
    intptr_t rcvid = MsgReceive(*(int *)chid, room, sizeof room, NULL);
    return (void *)rcvid;
}

/* A cancelled thread leaves its call, its message and its place. */
void cancelled(void) {
    int chid = ChannelCreate(0), coid = attach(chid), told = ChannelCreate(_NTO_CHF_UNBLOCK), over = attach(told);
    struct _pulse pulse;
    struct client client;
    pthread_t thread = start(blocked_receive, &chid);
    until_state(2, STATE_RECEIVE);
    check(pthread_cancel(thread) == 0 && result_of(thread) == (long)PTHREAD_CANCELED && atomic_load(&cleaned));
    thread = start(blocked_sendv, &coid);
    until_state(2, STATE_SEND);
    check(pthread_cancel(thread) == 0 && result_of(thread) == (long)PTHREAD_CANCELED);
    thread = start(blocked_sendv, &over);
    int rcvid = receive(told);
    check(pthread_cancel(thread) == 0 && MsgReceivePulse(told, &pulse, sizeof pulse, NULL) == 0);
    check(pulse.code == _PULSE_CODE_UNBLOCK && pulse.value.sival_int == rcvid && MsgError(rcvid, EINTR) == 0);
    check(result_of(thread) == (long)PTHREAD_CANCELED);
    thread = start(not_cancellable, &chid);
    until_state(2, STATE_RECEIVE);
    check(pthread_cancel(thread) == 0);
    usleep(5000);
    check(neutrino_state(2) == STATE_RECEIVE);
    begin_send(&client, coid);
    rcvid = (int)result_of(thread);
    check(rcvid > 0 && MsgReply(rcvid, 1, NULL, 0) == 0);
    end_send(&client);
    set_timeout(_NTO_TIMEOUT_RECEIVE, 0);
    check(receive(chid) == -1 && errno == ETIMEDOUT); /* no message is left */
    check(ConnectDetach(coid) == 0 && ChannelDestroy(chid) == 0);
    check(ConnectDetach(over) == 0 && ChannelDestroy(told) == 0);
}

static void *receive_forever(void *argument) {
    char room[8];
    for (;;) MsgReceive(*(int *)argument, room, sizeof room, NULL);
    return NULL;
}

/* Cancels threads anywhere in their loop, again and again. */
void many_cancelled(void) {
    int chid = ChannelCreate(0);
    for (int turn = 0; turn < rounds; turn++) {
        pthread_t thread = start(receive_forever, &chid);
        for (int waits = 0; waits < turn % 200; waits++) sched_yield();
        check(pthread_cancel(thread) == 0 && result_of(thread) == (long)PTHREAD_CANCELED);
    }
    check(ChannelDestroy(chid) == 0);
}
