/* The words for operations and threads. Tested, not proved. */
#include <stdarg.h>

enum { WORDS = 160 };

static const char *const operation_names[OPERATIONS] = {
    [1] = "ChannelCreate",
    "ConnectAttach",
    "MsgSend",
    "MsgReceive",
    "MsgReply",
    "MsgError",
    "MsgRead",
    "MsgWrite",
    "MsgInfo",
    "MsgReceivePulse",
    "MsgSendPulse",
    "SchedSet",
    "SchedGet",
    "ChannelDestroy",
    "shutdown",
    "unblock",
    "ConnectDetach",
    [DO_START] = "start",
    [DO_CREATE] = "pthread_create",
    [DO_JOIN] = "pthread_join",
    [DO_END] = "end of the thread",
    [DO_LOCK] = "lock",
    [DO_TRY_LOCK] = "trylock",
    [DO_UNLOCK] = "unlock",
    [DO_READ_LOCK] = "lock to read",
    [DO_COND_WAIT] = "pthread_cond_wait",
    [DO_COND_WAKE] = "wake-up of pthread_cond_wait",
    [DO_COND_SIGNAL] = "pthread_cond_signal",
    [DO_SEM_WAIT] = "sem_wait",
    [DO_SEM_POST] = "sem_post",
    [DO_SEM_READ] = "sem_getvalue",
    [DO_BARRIER] = "pthread_barrier_wait",
    [DO_BARRIER_END] = "end of pthread_barrier_wait",
    [DO_ONCE] = "pthread_once",
    [DO_SLEEP] = "sleep",
    [DO_YIELD] = "sched_yield",
    [DO_NAME] = "name_attach",
    [DO_FIND_NAME] = "name_open",
    [DO_SET_TIMER] = "timer_settime",
    [DO_EXPIRE] = "expiry of timers",
    [DO_TIME_OUT] = "timeout",
    [DO_TIME] = "time passes",
    [DO_TABLES] = "connection data",
    [DO_CANCEL] = "pthread_cancel",
    [DO_KILL] = "pthread_kill",
    [DO_EXIT] = "exit",
};

/* The kinds of the kernel's calls that the words need, as in balsaeuchre.h, and the states of sys/neutrino.h. */
enum { CALL_SEND = 3, CALL_RECEIVE, CALL_REPLY, CALL_ERROR, CALL_RECEIVE_PULSE = 10 };
enum { BLOCKED_SEND = 2, BLOCKED_RECEIVE, BLOCKED_REPLY };

static const char *operation_name(unsigned operation) {
    const char *name = operation < OPERATIONS ? operation_names[operation] : NULL;
    return name ? name : "operation";
}

/* Writes a thread's name, as in a record: main, its own name, or t and its tid. */
static const char *task_name(const struct explore_run *run, unsigned task, char words[WORDS]) {
    const struct explore_task *t = task < TASKS ? &run->tasks[task] : NULL;
    if (!t) snprintf(words, WORDS, "time");
    else if (*t->name) snprintf(words, WORDS, "%.*s", TASK_NAME, t->name);
    else if (!task) snprintf(words, WORDS, "main");
    else snprintf(words, WORDS, "t%d", t->tid ? t->tid : (int)task + 1);
    return words;
}

/* Writes an operation with its thread, such as `t2: MsgReply to t3, channel 1`. */
static const char *event_words(const struct explore_run *run, const struct explore_event *e, char words[WORDS]) {
    char name[WORDS], other[WORDS] = "", channel[32] = "";
    if (e->operation == DO_TIME) return snprintf(words, WORDS, "time passes"), words;
    if (e->operation < DO_START && e->other < TASKS) {
        char client[WORDS];
        const char *before = e->operation == CALL_REPLY || e->operation == CALL_ERROR ? "to" : "for";
        snprintf(other, sizeof other, " %s %s", before, task_name(run, e->other, client));
    }
    if (e->chid > 0) snprintf(channel, sizeof channel, ", channel %d", e->chid);
    snprintf(words, WORDS, "%.40s: %s%.40s%s", task_name(run, e->task, name), operation_name(e->operation), other,
             channel);
    return words;
}

/* Writes the reason for which a thread is blocked. */
static const char *wait_words(const struct explore_run *run, const struct explore_task *t, char words[WORDS]) {
    char name[WORDS];
    const char *other = t->other < TASKS ? task_name(run, t->other, name) : NULL;
    if (t->state == BLOCKED_RECEIVE) snprintf(words, WORDS, "RECEIVE-blocked on channel %d", t->chid);
    else if (t->state == BLOCKED_REPLY)
        snprintf(words, WORDS, "REPLY-blocked on %s, channel %d", other ? other : "nobody", t->chid);
    else if (t->state == BLOCKED_SEND && other)
        snprintf(words, WORDS, "SEND-blocked on channel %d, whose server is %s", t->chid, other);
    else if (t->state == BLOCKED_SEND)
        snprintf(words, WORDS, "SEND-blocked on channel %d, from which nobody has received", t->chid);
    else if (t->operation == DO_JOIN) snprintf(words, WORDS, "waits for the end of %s", other ? other : "a thread");
    else if (t->operation == DO_LOCK && other)
        snprintf(words, WORDS, "waits for the lock %#llx, which %s holds", (unsigned long long)t->address, other);
    else if (t->address)
        snprintf(words, WORDS, "waits in %s at %#llx", operation_name(t->operation), (unsigned long long)t->address);
    else snprintf(words, WORDS, "waits in %s", operation_name(t->operation));
    return words;
}
