/* The place of a crash in an explored run. Tested, not proved. */
#include <execinfo.h>
#include <ucontext.h>

enum { CRASH_STACK = 1 << 14 };

static const int crash_signals[] = {SIGSEGV, SIGBUS, SIGFPE, SIGILL, SIGABRT, SIGTRAP, SIGSYS};
static char crash_stacks[TASKS][CRASH_STACK];

/* Returns the address of the instruction at which a signal came, or 0 if it isn't known. */
static uintptr_t place_of_signal(const ucontext_t *context) {
#ifdef __x86_64__
    return (uintptr_t)context->uc_mcontext.gregs[REG_RIP];
#else
    (void)context;
    return 0;
#endif
}

/* Keeps the place of a crash, and then the addresses to which functions return. Sends the signal again, which comes
 * when the handler has returned: the host has removed it. */
static void note_crash(int signo, siginfo_t *info, void *context) {
    void *frames[FRAMES];
    (void)info;
    int count = backtrace(frames, FRAMES - 1);
    run->crash_signal = signo;
    run->frames[0] = place_of_signal(context);
    for (int at = 0; at < count; at++) run->frames[at + 1] = (uintptr_t)frames[at];
    run->frame_count = (uint32_t)count + 1;
    raise(signo);
}

/* Gives the calling thread a stack on which a crash by a full stack can be noted. */
static void use_crash_stack(void) {
    sigaltstack(&(stack_t){.ss_sp = crash_stacks[index_of(me)], .ss_size = CRASH_STACK}, NULL);
}

static void watch_crashes(void) {
    for (size_t at = 0; at < sizeof crash_signals / sizeof *crash_signals; at++) {
        struct sigaction old, action = {.sa_sigaction = note_crash, .sa_flags = SA_SIGINFO | SA_RESETHAND | SA_ONSTACK};
        sigemptyset(&action.sa_mask);
        bool is_free = !sigaction(crash_signals[at], NULL, &old) && old.sa_handler == SIG_DFL;
        if (is_free) sigaction(crash_signals[at], &action, NULL);
    }
}
