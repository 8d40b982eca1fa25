/* The tasks of an explored run, which are the threads of the program. Tested, not proved. */
#include "map.h"

#include <linux/futex.h>
#include <sys/mman.h>
#include <sys/syscall.h>
#include <sys/wait.h>

struct access {
    uint64_t object; /* 0: none */
    bool changes;
};

struct task {
    struct explore_task *shown; /* in the memory that balsaeuchre-explore sees; has its life and operation */
    _Atomic uint32_t turn;      /* 1: it has the turn */
    struct access accesses[ACCESSES];
    bool (*can_run)(const struct task *t); /* null: it can */
    const void *awaited;                   /* the object that can_run looks at */
    uint64_t until;                        /* the time at which it can run in any case; 0: none */
    bool is_late, is_cancelled, is_signalled, is_resuming, is_woken;
    bool takes_cancel;        /* a cancellation ends its wait */
    int atomic;               /* above 0: it keeps its turn */
    uint64_t past, last_turn; /* a hash of the operations that came before its next one; when it had the turn */
    uint32_t priority;        /* of the policy PCT */
    uint32_t made;            /* operations */
    unsigned clock_reads;     /* since its last operation */
    pthread_t thread;
    pid_t host; /* the host's number of the thread */
};

enum { ABSENT, PRESENT, OVER };
static const uint64_t NEVER = UINT64_MAX;

static struct explore_run *run;
static struct explore_states *states;
static struct task tasks[TASKS];
static _Thread_local struct task *me;
static struct task *last; /* the task that has the turn, or had it last */
static uint64_t virtual_time = 1000000000, turns;
static pid_t exiting; /* the host's thread that ended last, or 0 */

static bool explores(void) { return exploring && me; }

static unsigned index_of(const struct task *t) { return (unsigned)(t - tasks); }

static int life_of(const struct task *t) { return t->shown ? t->shown->life : ABSENT; }

/* Whether a task can run now. */
static bool is_enabled(const struct task *t) {
    if (life_of(t) != PRESENT) return false;
    if (t->shown->operation == DO_SLEEP && t->is_signalled) return true;
    return !t->can_run || t->is_late || (t->takes_cancel && t->is_cancelled) || t->can_run(t);
}

/* Returns the task of a thread, or null. A thread that has ended keeps its task. */
static struct task *task_of(pthread_t thread) {
    struct task *found = NULL;
    for (int at = 0; at < TASKS; at++) {
        if (life_of(&tasks[at]) != ABSENT && pthread_equal(tasks[at].thread, thread)) found = &tasks[at];
    }
    return found;
}

/* Returns the index of the present task with this tid, or TASKS. A tid is given to another thread later, and an index
 * isn't. */
static unsigned task_of_tid(int tid) {
    for (unsigned at = 0; at < TASKS; at++) {
        if (life_of(&tasks[at]) == PRESENT && tasks[at].shown->tid == tid) return at;
    }
    return TASKS;
}

/* Lets the host's other threads run. The host's own nanosleep would end a cancelled thread. */
static void pause_for_host(long nanoseconds) {
    const struct timespec time = {0, nanoseconds};
    syscall(SYS_clock_nanosleep, CLOCK_MONOTONIC, 0, &time, NULL);
}

/* Waits until the thread that gave its turn at its end has left the process. So what the host does at a thread's end
 * comes before the next operation, and memory gets the same addresses in each run. */
static void await_exit(void) {
    enum { LOOKS = 5000 };
    if (exiting == getpid()) exiting = 0; /* the main thread stays until the process ends */
    for (int looks = 0; exiting && looks < LOOKS; looks++) {
        if (syscall(SYS_tgkill, getpid(), exiting, 0)) break;
        pause_for_host(20000);
    }
    exiting = 0;
}

static const struct timespec *longest_sleep(void);
static void take_signals(void);

static void sleep_until_turn(struct task *t) {
    while (!atomic_load(&t->turn)) {
        syscall(SYS_futex, &t->turn, FUTEX_WAIT_PRIVATE, 0, longest_sleep(), NULL, 0);
        take_signals();
    }
    atomic_store(&t->turn, 0);
    if (exiting) await_exit();
}

static void pass_turn(struct task *to) {
    last = to;
    run->running = index_of(to);
    to->last_turn = ++turns;
    atomic_store(&to->turn, 1);
    syscall(SYS_futex, &to->turn, FUTEX_WAKE_PRIVATE, 1, NULL, NULL, 0);
}

/* Keeps the turn for operations that the front makes by itself (1), and no longer (-1). */
static void keep_turn(int more) {
    if (explores()) me->atomic += more;
}
