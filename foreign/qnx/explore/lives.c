/* The lives of the tasks of an explored run. Tested, not proved. */

/* Returns a new task, from this index on, or null. It has no thread yet: the thread tells it, or the thread that
 * creates it. A task that has ended is used again only if there is no other. */
static struct task *new_task(int first) {
    int at = first;
    while (at < SERVICE && life_of(&tasks[at]) != ABSENT) at++;
    for (int again = first; at == SERVICE && first != SERVICE && again < SERVICE; again++) {
        if (life_of(&tasks[again]) != PRESENT) at = again;
    }
    struct task *t = &tasks[at];
    if (life_of(t) == PRESENT) return NULL;
    *t = (struct task){.shown = &run->tasks[at], .past = me ? mix_in(me->past, DO_START) : 1};
    *t->shown = (struct explore_task){.life = PRESENT, .operation = DO_START, .other = TASKS};
    set_accesses(t->accesses, DO_START, &(struct about){0});
    if (me) note_ended(t);
    return t;
}

/* The calling thread waits for its first turn. */
static void begin_task(struct task *t) {
    if (!t) return;
    look_away();
    me = t;
    me->thread = pthread_self();
    me->host = gettid();
    use_crash_stack();
    sleep_until_turn(me);
    begin_turn();
    note_event(me, DO_START, me->accesses);
    look_again();
}

/* A creation, before the thread exists. Returns null outside of an explored run, and if there is no task left. */
static struct task *begin_creation(void) {
    if (!explores()) return NULL;
    step_if_explored(DO_CREATE);
    return new_task(1);
}

static void end_creation(struct task *t, int error, pthread_t created, int tid) {
    if (!t) return;
    t->thread = created;
    t->shown->tid = tid;
    if (error) t->shown->life = ABSENT;
}

static bool tells_of_threads(void);

/* The end of the calling thread, before the front gives back its seat. If channels get pulses
 * about it, it uses their queues. */
static void begin_end(void) {
    if (!explores()) return;
    state_operation(DO_END, &(struct about){.task = index_of(me)});
    give_turn();
    me->accesses[0].changes |= tells_of_threads();
    note_event(me, DO_END, me->accesses);
    look_away();
}

/* Gives the turn for the last time. */
static void end_task(void) {
    if (!explores()) return;
    me->shown->life = OVER;
    me->shown->operation = DO_END;
    me->can_run = NULL;
    look_again();
    struct task *next = pick();
    exiting = gettid();
    me = NULL;
    pass_turn(next);
}

static bool is_over(const struct task *t) { return life_of(t->awaited) != PRESENT; }

/* Waits until a thread has ended. Returns whether the time has come before that. */
static bool await_end(pthread_t thread, uint64_t until) {
    struct task *t = explores() ? task_of(thread) : NULL;
    if (!t) return false;
    unsigned at = index_of(t);
    bool is_late = step_until(DO_JOIN, &(struct about){.task = at}, &(struct wait){is_over, t, until});
    me->past = mix_in(me->past, t->past);
    return is_late && life_of(t) == PRESENT;
}

/* Joins a thread, until a time by CLOCK_REALTIME if that isn't null. */
static int ordered_join(pthread_t thread, void **value, const struct timespec *until) {
    if (explores() && await_end(thread, until ? on_clock(CLOCK_REALTIME, until) : 0)) return ETIMEDOUT;
    return until && !exploring ? pthread_timedjoin_np(thread, value, until) : pthread_join(thread, value);
}

/* Notes that a thread is cancelled. */
static void cancel_task(pthread_t thread) {
    struct task *t = explores() ? task_of(thread) : NULL;
    if (t) t->is_cancelled = true;
}

/* Makes a task for the front's own thread, which begins when it has work. */
static void create_service(bool (*has_work)(const struct task *t)) {
    struct task *t = new_task(SERVICE);
    if (!t) return;
    t->shown->operation = DO_EXPIRE;
    snprintf(t->shown->name, sizeof t->shown->name, "timers");
    t->shown->tid = TICKER;
    t->can_run = has_work;
    t->is_resuming = true;
}

/* The front's own thread waits for work. */
static void await_work(bool (*has_work)(const struct task *t)) {
    me->is_resuming = true;
    step_until(DO_EXPIRE, &(struct about){0}, &(struct wait){has_work, NULL, 0});
}

static void show_name(pthread_t thread, const char *name) {
    struct task *t = explores() ? task_of(thread) : NULL;
    if (t) snprintf(t->shown->name, sizeof t->shown->name, "%s", name);
}

static unsigned holder_of(const void *lock);

/* Shows the reason for which each task waits. */
static void show_waits(void) {
    for (unsigned at = 0; at < TASKS; at++) {
        const struct task *t = &tasks[at];
        if (life_of(t) != PRESENT) continue;
        struct explore_task *shown = t->shown;
        shown->is_enabled = is_enabled(t);
        if (shown->operation == DO_JOIN) shown->other = (uint8_t)index_of(t->awaited);
        if (shown->operation == DO_LOCK || shown->operation == DO_READ_LOCK)
            shown->other = (uint8_t)holder_of(t->awaited);
        const struct receiver *last_receiver = &receivers[shown->chid % FLAGGED];
        bool has_server = shown->state == STATE_SEND && last_receiver->chid == shown->chid && shown->chid;
        if (has_server) shown->other = (uint8_t)last_receiver->task;
    }
}
