/* Signals: handlers end calls. Tested, not proved.
 *
 * The host runs on_signal, which marks the call of its thread as interrupted and then runs the program's
 * handler. */
#include <fcntl.h>
#include <ucontext.h>

enum { NESTED = 8 }; /* a thread records at most this number of nested handlers */

static _Atomic uintptr_t handlers[NSIG]; /* the program's */
static _Atomic int flags_of[NSIG];

/* A handler that a thread is in. It runs on the stack between these two addresses. */
struct handling {
    uintptr_t low, high;
    int signo; /* the handler's signal if it is blocked meanwhile, or 0 */
};

static _Atomic int handled; /* the signals of an explored run whose handlers have run */
static _Thread_local volatile struct handling handlings[NESTED];
static _Thread_local volatile sig_atomic_t handling; /* the number of handlers that the thread is in */

/* Returns whether a handler was left by a jump, such as siglongjmp: the thread is above the handler on the
 * stack, or on another stack, or has the signal unblocked. */
static bool is_left(const volatile struct handling *h) {
    sigset_t blocked;
    uintptr_t here = (uintptr_t)__builtin_frame_address(0);
    if (here < h->low || here > h->high) return true;
    return h->signo && !pthread_sigmask(SIG_BLOCK, NULL, &blocked) && !sigismember(&blocked, h->signo);
}

/* Returns whether the calling thread is in a handler of the program. */
static bool is_handling(void) {
    while (handling && is_left(&handlings[handling - 1])) handling--;
    return handling;
}

/* Records that the calling thread is in one more handler, which on_signal calls in this frame. It writes the
 * record twice, since a handler that interrupts this function may have used the same place. */
static void begin_handling(int outer, int signo, const ucontext_t *context, void *frame) {
    uintptr_t low = (uintptr_t)context->uc_stack.ss_sp, high = low + context->uc_stack.ss_size, at = (uintptr_t)frame;
    bool is_alternate = at >= low && at < high;
    bool is_blocked = !(atomic_load(&flags_of[signo]) & SA_NODEFER);
    struct handling own = {is_alternate ? low : 0, at, is_blocked ? signo : 0};
    for (int times = 0; times < 2 && outer < NESTED; times++) {
        handlings[outer] = own;
        handling = outer + 1;
    }
}

static void on_signal(int signo, siginfo_t *info, void *context) {
    uintptr_t handler = atomic_load(&handlers[signo]);
    int before = errno; /* errno belongs to the interrupted call */
    neutrino_interrupt();
    int outer = is_handling() ? handling : 0;
    begin_handling(outer, signo, context, __builtin_frame_address(0));
    if (atomic_load(&flags_of[signo]) & SA_SIGINFO) ((void (*)(int, siginfo_t *, void *))handler)(signo, info, context);
    else ((void (*)(int))handler)(signo);
    handling = outer;
    errno = before;
    if (exploring) handled++;
}

static bool is_handler(const struct sigaction *action) {
    return action->sa_handler != SIG_DFL && action->sa_handler != SIG_IGN && action->sa_handler != SIG_ERR;
}

/* Puts the handler and the flags that the program set into an action of the host that has on_signal. */
static void name_handler(struct sigaction *action, uintptr_t handler, int flags) {
    if (!(action->sa_flags & SA_SIGINFO) || action->sa_sigaction != on_signal) return;
    action->sa_flags = flags;
    if (flags & SA_SIGINFO) action->sa_sigaction = (void (*)(int, siginfo_t *, void *))handler;
    else action->sa_handler = (void (*)(int))handler;
}

int neutrino_sigaction(int signo, const struct sigaction *action, struct sigaction *old) {
    if (signo < 1 || signo >= NSIG) return fail(EINVAL);
    uintptr_t handler = atomic_load(&handlers[signo]);
    int flags = atomic_load(&flags_of[signo]);
    struct sigaction hosts;
    if (action && is_handler(action)) {
        hosts = *action;
        hosts.sa_flags |= SA_SIGINFO;
        hosts.sa_sigaction = on_signal;
        bool takes_info = action->sa_flags & SA_SIGINFO;
        atomic_store(&handlers[signo], takes_info ? (uintptr_t)action->sa_sigaction : (uintptr_t)action->sa_handler);
        atomic_store(&flags_of[signo], action->sa_flags);
        action = &hosts;
    }
    int result = sigaction(signo, action, old);
    if (result && action == &hosts) {
        atomic_store(&handlers[signo], handler);
        atomic_store(&flags_of[signo], flags);
    }
    if (!result && old) name_handler(old, handler, flags);
    return result;
}

void (*neutrino_signal(int signo, void (*handler)(int)))(int) {
    struct sigaction action, old;
    memset(&action, 0, sizeof action);
    action.sa_handler = handler;
    action.sa_flags = SA_RESTART;
    sigemptyset(&action.sa_mask);
    if (handler != SIG_ERR && !neutrino_sigaction(signo, &action, &old)) return old.sa_handler;
    errno = EINVAL;
    return SIG_ERR;
}

/* Whether a thread of an explored run blocks a signal, as the host shows it. */
static bool blocks(const struct task *t, int signo) {
    char text[4096], *line;
    snprintf(text, sizeof text, "/proc/self/task/%d/status", (int)t->host);
    int file = open(text, O_RDONLY | O_CLOEXEC);
    ssize_t length = file == -1 ? 0 : read(file, text, sizeof text - 1);
    if (file != -1) close(file);
    text[length > 0 ? length : 0] = 0;
    line = strstr(text, "\nSigBlk:");
    return line && strtoull(line + sizeof "\nSigBlk:", NULL, 16) >> (signo - 1) & 1;
}

/* In an explored run the caller waits until the handler has run, unless the thread blocks the signal. */
int neutrino_pthread_kill(pthread_t thread, int signo) {
    enum { PAUSES = 20000, LOOKS = 100 };
    if (!explores() || signo < 1 || signo >= NSIG) return pthread_kill(thread, signo);
    step_if_explored(DO_KILL);
    struct task *t = task_of(thread);
    int before = handled;
    if (t && t->shown->operation == DO_SLEEP) t->is_signalled = true;
    int error = pthread_kill(thread, signo);
    bool waits = !error && t && t != me && life_of(t) == PRESENT && atomic_load(&handlers[signo]);
    for (int pauses = 1; waits && handled == before && pauses <= PAUSES; pauses++) {
        pause_for_host(100000);
        if (pauses % LOOKS == 0 && blocks(t, signo)) break;
    }
    return error;
}
