/* The kernel's calls in an explored run: the functions of the layer's scheduler. Tested, not proved. */

/* Ends a run in which a thread that the host has created makes a call: it has no turn. */
static void need_task(void) {
    if (me) return;
    run->end = UNKNOWN_THREAD;
    _exit(125);
}

static bool is_receive(uint32_t kind) { return kind == BALSAEUCHRE_RECEIVE || kind == BALSAEUCHRE_RECEIVE_PULSE; }

/* Returns the objects of a call. */
static struct about about_call(int chid, int client) {
    return (struct about){.chid = chid, .task = client ? task_of_tid(client) : TASKS};
}

static void await_call_turn(uint32_t kind, int chid, int client) {
    struct about about = about_call(chid, client);
    need_task();
    if (me->atomic) return;
    state_operation(kind, &about);
    me->shown->tid = seat;
    if (kind == BALSAEUCHRE_SEND || kind == BALSAEUCHRE_PULSE) release_order(&order_of_channel[chid & 1023]);
    bool replies = kind == BALSAEUCHRE_REPLY || kind == BALSAEUCHRE_ERROR;
    if (replies && about.task < TASKS) release_order(&order_of_task[about.task]);
    give_turn();
}

/* A call whose number names nothing fails, whatever it is about. So it depends on everything. */
static void before_call(uint32_t kind, int is_valid, int chid, int client) {
    struct about about = about_call(chid, client);
    if (me->atomic) return;
    set_accesses(me->accesses, kind, &about);
    me->accesses[0].changes |= !is_valid;
    me->shown->chid = chid;
    me->shown->other = (uint8_t)about.task;
    note_event(me, kind, me->accesses);
    look_away();
}

static void after_call(void) {
    if (!me || me->atomic) return;
    look_again();
    if (me->shown->operation == BALSAEUCHRE_SEND) acquire_order(&order_of_task[index_of(me)]);
    if (is_receive(me->shown->operation)) acquire_order(&order_of_channel[me->shown->chid & 1023]);
    me->shown->state = 0;
}

static bool has_ended(const struct task *t) { return atomic_load((const _Atomic uint32_t *)t->awaited) >= 2; }

/* The wait of a call. A call that times out is an event of its own. */
static int wait_for_end(int tid, const void *word, uint64_t until) {
    me->shown->tid = tid;
    if (!me->shown->state) me->shown->state = is_receive(me->shown->operation) ? STATE_RECEIVE : STATE_SEND;
    me->can_run = has_ended;
    me->awaited = word;
    me->until = until;
    me->is_late = false;
    me->is_resuming = true;
    bool is_late = give_turn() && !has_ended(&(struct task){.awaited = word});
    if (!is_late) return false;
    struct access accesses[ACCESSES];
    set_accesses(accesses, DO_TIME_OUT, &(struct about){.chid = me->shown->chid, .task = index_of(me)});
    note_event(me, DO_TIME_OUT, accesses);
    return true;
}

/* The thread of the completed call depends on all operations of the caller so far. */
static void end_of_call(int tid) {
    unsigned at = task_of_tid(tid);
    if (at == TASKS || &tasks[at] == me || !me) return;
    tasks[at].past = mix_in(tasks[at].past, me->past);
    note_ended(&tasks[at]);
}

static uint64_t time_of_run(void) { return virtual_time; }

static const struct neutrino_scheduler scheduler = {await_call_turn, before_call, after_call,
                                                    wait_for_end,    end_of_call, time_of_run};

/* The channels that threads have received from: the last receiver is the server for which a SEND-blocked thread
 * waits. */
static struct receiver {
    int chid;
    unsigned task;
} receivers[FLAGGED];

/* Looks at the completions of a call, under the kernel's lock: who has received whose message, and whether a call has
 * failed. */
static void watch_call(const balsaeuchre_event *event) {
    if (!exploring || !me) return;
    for (size_t at = 0; at < event->done.endings; at++) {
        const balsaeuchre_ending *row = &event->rows[at];
        unsigned receiver = task_of_tid(row->thread), sender = task_of_tid(row->sender);
        bool is_wrong = row->errno_ == BALSAEUCHRE_SRCH || row->errno_ == BALSAEUCHRE_BADF;
        if (row->mark == BALSAEUCHRE_FAILED && is_wrong && run->tells_failures && !me->atomic) {
            run->failed_error = row->errno_ == BALSAEUCHRE_SRCH ? ESRCH : EBADF;
            end_run(FAILED_CALL);
        }
        if (row->mark != BALSAEUCHRE_MESSAGE || receiver == TASKS) continue;
        int chid = tasks[receiver].shown->chid;
        receivers[chid % FLAGGED] = (struct receiver){chid, receiver};
        if (sender == TASKS) continue;
        tasks[sender].shown->state = STATE_REPLY;
        tasks[sender].shown->other = (uint8_t)receiver;
    }
}
