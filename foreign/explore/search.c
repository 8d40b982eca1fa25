/* The common parts of all searches: their limits, and what is kept of a run. Tested, not proved. */
static void show_progress(const struct search *s);

static bool is_known(const struct search *s, struct outcome outcome) {
    for (int at = 0; at < s->finding_count; at++) {
        if (is_same_outcome(s->findings[at].outcome, outcome)) return true;
    }
    return false;
}

/* Whether a second phase follows the present one. Each of them then has half of the limits. */
static bool has_second_phase(const struct search *s) { return !s->options->no_early && !s->early && s->has_times; }

static bool is_over(const struct search *s) {
    const struct options *o = s->options;
    if (s->wanted && is_known(s, *s->wanted)) return true;
    if (s->finding_count && !o->all && !s->wanted) return true;
    if (s->finding_count == KINDS) return true;
    double part = has_second_phase(s) ? 0.5 : 1;
    if (o->runs && (double)s->started >= part * (double)o->runs) return true;
    return o->seconds > 0 && seconds_now() > s->begun + part * o->seconds;
}

static void add_member(struct set *set, uint64_t number) {
    if (set->count * 2 >= set->room) {
        struct set old = *set;
        set->room = old.room ? 2 * old.room : 1024;
        set->count = 0;
        set->members = calloc(set->room, sizeof *set->members);
        if (!set->members) give_up("there is no memory");
        for (size_t at = 0; at < old.room; at++) {
            if (old.members[at]) add_member(set, old.members[at]);
        }
        free(old.members);
    }
    size_t at = number % set->room;
    while (set->members[at] && set->members[at] != number) at = (at + 1) % set->room;
    set->count += !set->members[at];
    set->members[at] = number;
}

/* Adds the order and the output of a whole run. */
static void add_order(struct search *s, const struct program *p) {
    size_t length;
    if (p->run->end == VISITED || !p->run->final) return;
    add_member(&s->orders, p->run->final);
    if (!s->options->json) return;
    char *text = text_of(p->output, &length);
    uint64_t hash = 1;
    for (size_t at = 0; at < length; at++) hash = (hash ^ (unsigned char)text[at]) * 0x100000001b3u;
    add_member(&s->outputs, hash | 1);
    free(text);
}

/* Returns a copy of the choices of the last run. */
static uint8_t *copy_choices(const struct explore_run *run) {
    uint8_t *choices = malloc(run->choice_count + 1u);
    if (!choices) give_up("there is no memory");
    for (uint32_t at = 0; at < run->choice_count; at++) choices[at] = run->choices[at].chosen;
    return choices;
}

static uint64_t *copy_states(const struct explore_run *run) {
    uint64_t *copies = malloc((run->choice_count + 1u) * sizeof *copies);
    if (!copies) give_up("there is no memory");
    for (uint32_t at = 0; at < run->choice_count; at++) copies[at] = run->choices[at].state;
    return copies;
}

/* Whether a run was ended in its middle, so that its other operations aren't known. */
static bool is_cut(enum failure failure) { return failure >= FAILED_ENDLESS || failure == FAILED_ERROR; }

/* Keeps the last run of a program as a finding, if it failed in a new way. */
static void note_run(struct search *s, struct program *p) {
    const struct explore_run *run = p->run;
    s->runs++;
    s->has_times |= run->has_times != 0;
    s->has_cut |= is_cut(p->outcome.failure);
    if (run->choice_count > s->longest) s->longest = run->choice_count;
    add_order(s, p);
    show_progress(s);
    if (p->outcome.failure == PASSED || is_known(s, p->outcome) || s->finding_count == KINDS) return;
    s->findings[s->finding_count++] = (struct finding){.outcome = p->outcome,
                                                       .number = s->runs,
                                                       .early = p->request.early,
                                                       .choices = copy_choices(run),
                                                       .states = copy_states(run),
                                                       .length = run->choice_count};
}

/* A strategy gives requests and takes the runs that they led to. next returns false if no request can be made now; if
 * no run is under way then, the search is whole. */
struct strategy {
    bool (*next)(struct search *s, struct request *r, void **origin);
    void (*done)(struct search *s, struct program *p);
};

/* Begins runs on the programs that are idle. Returns how many are under way. */
static int begin_runs(struct search *s, const struct strategy *strategy) {
    int running = 0;
    for (int at = 0; at < s->options->jobs; at++) {
        struct program *p = &s->programs[at];
        struct request request = {.next = DEFAULT_CHOICE, .seed = 1, .early = s->early};
        bool may_begin = !p->child && !is_over(s) && strategy->next(s, &request, &p->origin);
        if (may_begin) begin_run(p, s->options, &request);
        s->started += may_begin;
        running += p->child != 0;
    }
    return running;
}

/* Waits until a run has ended, and looks at all. */
static void await_runs(struct search *s, const struct strategy *strategy) {
    struct pollfd waits[JOBS];
    int status;
    for (int at = 0; at < s->options->jobs; at++) {
        struct program *p = &s->programs[at];
        waits[at] = (struct pollfd){.fd = p->child ? p->answers : -1, .events = POLLIN};
    }
    poll(waits, (nfds_t)s->options->jobs, LOOK);
    for (int at = 0; at < s->options->jobs; at++) {
        struct program *p = &s->programs[at];
        if (!p->child || !finish_run(p, &status, 0)) continue;
        p->outcome = outcome_of(s, p, status);
        strategy->done(s, p);
    }
}

/* Makes runs until the limits or the strategy end them. */
static void search_by(struct search *s, const struct strategy *strategy) {
    while (begin_runs(s, strategy)) await_runs(s, strategy);
}
