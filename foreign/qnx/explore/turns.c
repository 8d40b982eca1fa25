/* Turns: which task runs next. Tested, not proved.
 *
 * Before an operation a task states the operation, and gives its turn. The task with the turn chooses the next task of
 * the tasks that can run, and wakes it. Time doesn't pass while a task can run, unless CLOCK is chosen. Then it is the
 * next time at which a timer, a timeout or a sleep ends. */
static const uint64_t CLOCK_BIT = 1ull << CLOCK;

static uint64_t next_expiry(void);
static void expire_timers(void);
static void show_waits(void);

/* Whether a task waits until it may make an operation that is an event of its own. */
static bool waits_to_make(const struct task *t) {
    uint8_t operation = t->shown->operation;
    bool may_wait = operation == DO_LOCK || operation == DO_READ_LOCK || operation == DO_SEM_WAIT ||
                    operation == DO_ONCE;
    return may_wait && !is_enabled(t);
}

/* Notes the state at the end of the run, and the operations for which tasks wait. They aren't made, but could have
 * been made in another order. */
static void note_end(void) {
    uint32_t before = run->event_count;
    run->final = total;
    for (int at = 0; at < TASKS; at++) {
        const struct task *t = &tasks[at];
        bool is_noted = life_of(t) == PRESENT && waits_to_make(t) && run->event_count < EVENTS;
        if (is_noted) append_event(t, t->shown->operation, t->accesses);
    }
    run->awaited_count = run->event_count - before;
    run->event_count = before;
}

/* Ends the run before the program's end. */
_Noreturn static void end_run(enum explore_end end) {
    run->end = end;
    note_end();
    if (end != VISITED) show_waits();
    _exit(125);
}

/* Returns the next time at which a timer, a timeout or a sleep ends, or NEVER. */
static uint64_t next_time(void) {
    uint64_t next = next_expiry();
    for (int at = 0; at < TASKS; at++) {
        const struct task *t = &tasks[at];
        if (life_of(t) == PRESENT && t->until && t->until < next && !is_enabled(t)) next = t->until;
    }
    return next;
}

/* If no task could run, all later operations of tasks come after this event. */
static void advance_to(uint64_t time, bool could_run) {
    static struct task host;
    struct access accesses[ACCESSES];
    set_accesses(accesses, DO_TIME, &(struct about){0});
    if (time > virtual_time) virtual_time = time;
    note_event(&host, DO_TIME, accesses);
    expire_timers();
    for (int at = 0; at < TASKS; at++) {
        struct task *t = &tasks[at];
        if (life_of(t) != PRESENT) continue;
        bool comes = t->until && t->until <= virtual_time && !is_enabled(t);
        t->is_late |= comes;
        if (comes || !could_run) note_ended(t);
    }
}

/* Makes a choice by the plan or by the policy, and writes it. A planned choice that isn't possible is replaced, which
 * balsaeuchre-explore sees. */
static int choose(uint64_t enabled) {
    uint32_t at = run->choice_count;
    if (!(enabled & (enabled - 1))) return __builtin_ctzll(enabled);
    if (at == CHOICES) end_run(ENDLESS);
    int usual = continue_with(enabled & ~CLOCK_BIT), chosen = usual;
    if (at >= run->planned) chosen = by_policy(enabled);
    else if (run->plan[at] <= CLOCK && enabled >> run->plan[at] & 1) chosen = run->plan[at];
    uint64_t state = state_now();
    run->choices[at] = (struct explore_choice){.enabled = enabled,
                                               .state = state,
                                               .last = (uint8_t)index_of(last),
                                               .chosen = (uint8_t)chosen,
                                               .usual = (uint8_t)usual,
                                               .events = run->event_count};
    run->choice_count++;
    if (run->cuts && at >= run->planned && was_visited(state)) end_run(VISITED);
    choice_before = at + 1;
    return chosen;
}

/* Returns a task whose call has ended, and which goes on to its next operation without a choice, or null. Up to there
 * it uses nothing that others use. */
static struct task *resuming(uint64_t enabled) {
    uint64_t found = 0;
    for (int at = 0; at < TASKS; at++) {
        const struct task *t = &tasks[at];
        bool has_late_end = t->is_late && !(t->can_run && t->can_run(t));
        if (enabled >> at & 1 && t->is_resuming && !has_late_end) found |= 1ull << at;
    }
    if (!found || run->every_step) return NULL;
    return found >> index_of(last) & 1 ? last : &tasks[__builtin_ctzll(found)];
}

static struct task *pick(void) {
    for (;;) {
        uint64_t enabled = 0, next = next_time();
        if (run->event_count >= run->most_events) end_run(ENDLESS);
        for (int at = 0; at < TASKS; at++) {
            if (is_enabled(&tasks[at])) enabled |= 1ull << at;
        }
        struct task *first = resuming(enabled);
        if (first) return first;
        if (!enabled && next == NEVER) end_run(DEADLOCK);
        run->has_times |= next != NEVER;
        if (run->early && next != NEVER) enabled |= CLOCK_BIT;
        int chosen = enabled ? choose(enabled) : CLOCK;
        if (chosen != CLOCK) return &tasks[chosen];
        advance_to(next, enabled != 0);
    }
}

/* Ends the caller's wait, now that it has its turn. Returns whether its time has come. */
static bool begin_turn(void) {
    me->can_run = NULL;
    me->takes_cancel = false;
    me->until = 0;
    me->clock_reads = 0;
    me->is_resuming = false;
    return me->is_late;
}

/* Gives the turn, until the caller has it again. Returns whether the caller's time has come. Keeps errno, which the
 * host's functions for threads don't change either. */
static bool give_turn(void) {
    int before = errno;
    if (me->until && me->until <= virtual_time) me->is_late = true;
    struct task *next = pick();
    if (next == me) {
        me->last_turn = ++turns;
    } else {
        pass_turn(next);
        sleep_until_turn(me);
    }
    errno = before;
    return begin_turn();
}

/* States the operation that the caller is about to make. */
static void state_operation(uint32_t operation, const struct about *about) {
    me->shown->operation = (uint8_t)operation;
    me->shown->chid = about->chid;
    me->shown->address = (uintptr_t)about->address;
    me->shown->state = 0;
    me->shown->other = TASKS;
    me->is_late = false;
    set_accesses(me->accesses, operation, about);
}

/* Whether a cancellation ends the caller's wait in an operation. */
static bool is_cancellation_point(uint32_t operation) {
    int state, ignored;
    bool is_point = operation == DO_COND_WAKE || operation == DO_SLEEP || operation == DO_JOIN ||
                    operation == DO_SEM_WAIT;
    if (!is_point) return false;
    pthread_setcancelstate(PTHREAD_CANCEL_DISABLE, &state);
    pthread_setcancelstate(state, &ignored);
    return state == PTHREAD_CANCEL_ENABLE;
}

/* A wait: the condition under which the caller can run, and the time at which it can in any case, or 0. */
struct wait {
    bool (*can_run)(const struct task *t);
    const void *awaited;
    uint64_t until;
};

/* Makes an operation when the caller can run and has its turn. Returns whether its time has come. */
static bool step_until(uint32_t operation, const struct about *about, const struct wait *wait) {
    if (me->atomic) return false;
    state_operation(operation, about);
    me->can_run = wait->can_run;
    me->takes_cancel = is_cancellation_point(operation);
    me->awaited = wait->awaited;
    me->until = wait->until;
    bool is_late = give_turn();
    note_event(me, operation, me->accesses);
    order_uses(operation);
    return is_late;
}

static void step(uint32_t operation, const struct about *about) { step_until(operation, about, &(struct wait){0}); }

/* The same for a function of the front, outside of an explored run too. */
static void step_if_explored(uint32_t operation) {
    if (explores()) step(operation, &(struct about){.task = index_of(me)});
}
