/* Makes a failing run shorter: leaves out choices as long as the run fails in the same way. Tested, not proved. */
enum { MOST_TRIES = 600, MOST_SEARCHED = 600 }; /* runs */
enum { FEW = 3 };                               /* delays */

/* A run as the choices that differ from the usual ones. The other choices of the plan are DEFAULT_CHOICE. */
struct schedule {
    uint8_t plan[CHOICES];
    uint32_t length;  /* of the plan, which ends with a choice that differs */
    uint32_t differs; /* the number of such choices */
};

static void take_schedule(struct schedule *to, const struct explore_run *run) {
    to->length = to->differs = 0;
    for (uint32_t at = 0; at < run->choice_count; at++) {
        const struct explore_choice *c = &run->choices[at];
        to->plan[at] = c->chosen == c->usual ? DEFAULT_CHOICE : c->chosen;
        if (c->chosen == c->usual) continue;
        to->length = at + 1;
        to->differs++;
    }
}

static struct outcome run_schedule(struct search *s, struct program *p, const struct schedule *schedule, bool early) {
    const struct request request = {
        .plan = schedule->plan, .length = schedule->length, .next = DEFAULT_CHOICE, .early = early};
    return make_run(s, p, &request);
}

/* Writes the schedule without some of the choices that differ, from the one with this number on. */
static void leave_out(struct schedule *to, const struct schedule *from, uint32_t first, uint32_t count) {
    uint32_t number = 0;
    memcpy(to->plan, from->plan, from->length);
    for (uint32_t at = 0; at < from->length; at++) {
        if (to->plan[at] == DEFAULT_CHOICE) continue;
        if (number >= first && number < first + count) to->plan[at] = DEFAULT_CHOICE;
        number++;
    }
    to->length = from->length;
}

/* Tries to leave out choices, from the last ones on, and keeps each schedule with fewer choices that fails in the same
 * way. Returns whether there was one. */
static bool leave_out_each(struct search *s, struct finding *f, struct schedule *best, uint32_t count, int *tries) {
    static struct schedule tried, made;
    bool has_found = false;
    struct program *p = &s->programs[0];
    for (uint32_t first = best->differs; first > 0 && *tries < MOST_TRIES;) {
        first = first > count ? first - count : 0;
        leave_out(&tried, best, first, count);
        ++*tries;
        if (!is_same_outcome(run_schedule(s, p, &tried, f->early), f->outcome)) continue;
        take_schedule(&made, p->run);
        if (made.differs >= best->differs) continue;
        *best = made;
        has_found = true;
        if (first > best->differs) first = best->differs;
    }
    return has_found;
}

/* Whether the choices of a finding lead to the same failure again. Leaves its run in the first program. */
static bool comes_again(struct search *s, const struct finding *f) {
    const struct request request = {.plan = f->choices, .length = f->length, .next = DEFAULT_CHOICE, .early = f->early};
    return is_same_outcome(make_run(s, &s->programs[0], &request), f->outcome);
}

/* Takes the last run of the first program as the run of a finding. */
static void take_run(struct search *s, struct finding *f) {
    const struct explore_run *run = s->programs[0].run;
    free(f->choices);
    free(f->states);
    f->choices = copy_choices(run);
    f->states = copy_states(run);
    f->length = run->choice_count;
    f->delays = f->early_times = 0;
    for (uint32_t at = 0; at < f->length; at++) {
        f->delays += run->choices[at].chosen != run->choices[at].usual;
        f->early_times += run->choices[at].chosen == CLOCK;
    }
}

static void leave_out_all(struct search *s, struct finding *f) {
    static struct schedule best;
    int tries = 0;
    take_schedule(&best, s->programs[0].run);
    for (uint32_t count = best.differs; count && tries < MOST_TRIES;) {
        bool has_found = leave_out_each(s, f, &best, count, &tries);
        if (count > best.differs) count = best.differs;
        else if (!has_found) count /= 2;
    }
    if (is_same_outcome(run_schedule(s, &s->programs[0], &best, f->early), f->outcome)) take_run(s, f);
    else if (comes_again(s, f)) take_run(s, f);
}

static bool search_delays(struct search *s);

/* Looks for a run with few delays that fails in the same way. */
static void find_with_few(struct search *s, struct finding *f) {
    struct options options = *s->options;
    options.delays = FEW;
    options.jobs = 1;
    options.seconds = 10;
    options.runs = MOST_SEARCHED;
    options.no_early = true;
    struct search few = {.options = &options,
                         .programs = s->programs,
                         .begun = seconds_now(),
                         .early = f->early,
                         .wanted = &f->outcome,
                         .expected = s->expected,
                         .expected_length = s->expected_length};
    search_delays(&few);
    for (int at = 0; at < few.finding_count; at++) {
        struct finding *other = &few.findings[at];
        if (is_same_outcome(other->outcome, f->outcome) && comes_again(&few, other)) take_run(&few, f);
        free(other->choices);
        free(other->states);
    }
    free(few.orders.members);
    free(few.outputs.members);
}

/* Makes a finding's run shorter. Leaves its run in the first program, which has made it before. */
static void shorten(struct search *s, struct finding *f) {
    take_run(s, f);
    if (s->options->no_shorten) return;
    if (f->delays > FEW) find_with_few(s, f);
    comes_again(s, f);
    leave_out_all(s, f);
}
