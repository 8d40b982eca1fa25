/* Random runs, and runs with random priorities (PCT). Tested, not proved. */
static uint64_t mixed(uint64_t number) {
    number = (number ^ number >> 31) * 0x9e3779b97f4a7c15u;
    return (number ^ number >> 29) * 0xbf58476d1ce4e5b9u;
}

/* Returns the seed of a run, which shares no run with other seeds of the option. */
static uint64_t random_seed(const struct search *s, uint64_t number) {
    uint64_t seed = mixed(mixed(s->options->seed + 1) + number);
    return seed ? seed : 1;
}

static long random_begun, random_limit; /* runs */
static uint64_t first_end;              /* of the first random run that has ended, or 0 */

/* The second random run has the first one's seed, so that it shows whether the program is deterministic. */
static bool next_random_run(struct search *s, struct request *r, void **origin) {
    if (random_limit && random_begun >= random_limit) return false;
    bool repeats = ++random_begun == 2 && s->options->strategy != ONLY_PCT;
    *origin = (void *)(uintptr_t)random_begun;
    r->seed = random_seed(s, repeats ? 1 : (uint64_t)random_begun);
    r->policy = s->options->strategy == ONLY_PCT ? PCT : RANDOM;
    r->depth = (uint32_t)s->options->depth;
    r->expected_length = s->longest;
    return true;
}

static void random_run_done(struct search *s, struct program *p) {
    bool is_compared = (uintptr_t)p->origin <= 2 && s->options->strategy != ONLY_PCT && p->outcome.failure == PASSED;
    uint64_t end = mixed(p->run->final + p->run->choice_count) | 1;
    if (is_compared && first_end && end != first_end) p->outcome = (struct outcome){FAILED_DIFFERS, 0};
    if (is_compared) first_end = end;
    note_run(s, p);
}

/* Makes this many random runs, or any number if that is 0. */
static void search_random(struct search *s, long count) {
    static const struct strategy strategy = {next_random_run, random_run_done};
    s->name = s->options->strategy == ONLY_PCT ? "random priorities" : "random";
    random_begun = 0;
    first_end = 0;
    random_limit = count;
    search_by(s, &strategy);
}
