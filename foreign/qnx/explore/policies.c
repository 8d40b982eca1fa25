/* How a run chooses the next task where the plan has ended. Tested, not proved. */
static uint64_t next_random(void) {
    run->seed ^= run->seed << 13;
    run->seed ^= run->seed >> 7;
    return run->seed ^= run->seed << 17;
}

/* Returns the task of the nth bit that is set. */
static int nth(uint64_t set, unsigned n) {
    while (n--) set &= set - 1;
    return __builtin_ctzll(set);
}

/* Returns the task that has made the fewest operations. */
static int least_advanced(uint64_t enabled) {
    int found = -1;
    for (; enabled; enabled &= enabled - 1) {
        int at = __builtin_ctzll(enabled);
        if (found == -1 || tasks[at].made < tasks[found].made) found = at;
    }
    return found;
}

/* The policy CONTINUE: the same task runs next. If it waits or yields, the task with the fewest operations does. The
 * choice depends only on the state and on the last task, since it is the usual choice in each run that comes to the
 * state. */
static int continue_with(uint64_t enabled) {
    unsigned own = index_of(last);
    uint64_t others = enabled & ~(1ull << own);
    bool yields = last->shown->operation == DO_YIELD && others;
    if (enabled >> own & 1 && !yields) return (int)own;
    return least_advanced(others ? others : enabled);
}

static int by_random(uint64_t enabled) {
    return nth(enabled, (unsigned)(next_random() % (unsigned)__builtin_popcountll(enabled)));
}

/* Returns the task of the highest priority. A task gets a random priority at its first turn. */
static int highest(uint64_t enabled) {
    int found = -1;
    for (; enabled; enabled &= enabled - 1) {
        int at = __builtin_ctzll(enabled);
        if (!tasks[at].priority) tasks[at].priority = 1000 + (uint32_t)(next_random() % 1000000);
        if (found == -1 || tasks[at].priority > tasks[found].priority) found = at;
    }
    return found;
}

/* The policy PCT: the highest priority runs, and at depth - 1 random choices the running task gets a low one. */
static int by_priority(uint64_t enabled) {
    unsigned count = (unsigned)__builtin_popcountll(enabled);
    bool changes = run->depth > 1 && run->length && next_random() % run->length < run->depth - 1;
    bool can_advance = enabled >> CLOCK & 1;
    if (changes && can_advance && next_random() % count == 0) return CLOCK;
    enabled &= ~(1ull << CLOCK);
    count -= can_advance;
    int found = highest(enabled);
    bool yields = tasks[found].shown->operation == DO_YIELD;
    if ((!changes && !yields) || count == 1) return found;
    tasks[found].priority = 1 + (uint32_t)(next_random() % 900);
    return highest(enabled);
}

static int by_policy(uint64_t enabled) {
    if (run->policy == RANDOM) return by_random(enabled);
    if (run->policy == PCT) return by_priority(enabled);
    return continue_with(enabled & ~(1ull << CLOCK));
}
