/* Where two runs with the same choices differ. Tested, not proved. */
enum { REPEATS = 20 }; /* runs until two differ */

/* The events of a run. */
struct course {
    struct explore_event *events;
    uint32_t count;
};

static struct course copy_course(const struct explore_run *run) {
    struct course copy = {malloc((run->event_count + 1u) * sizeof *copy.events), run->event_count};
    if (!copy.events) give_up("there is no memory");
    memcpy(copy.events, run->events, run->event_count * sizeof *copy.events);
    return copy;
}

static bool is_same_event(const struct explore_event *a, const struct explore_event *b) {
    return a->task == b->task && a->operation == b->operation && a->other == b->other && a->chid == b->chid &&
           a->is_late == b->is_late && a->choice == b->choice;
}

/* Returns the index of the first event in which a run differs from a course, or the number of events of both. */
static uint32_t first_difference(const struct course *c, const struct explore_run *run) {
    uint32_t at = 0;
    while (at < c->count && at < run->event_count && is_same_event(&c->events[at], &run->events[at])) at++;
    return at;
}

/* Adds what one of the two runs did at an event. */
static void add_side(struct text *text, const char *which, const struct explore_run *run, const struct course *c,
                     uint32_t at) {
    char words[WORDS];
    const char *did = at < c->count ? event_words(run, &c->events[at], words) : "the end of the run";
    add(text, "  %s: %s\n", which, did);
}

/* Adds both sides of a difference at an event, and the choice after which it came. */
static void add_difference(struct text *text, const struct course *first, const struct explore_run *run, uint32_t at) {
    uint32_t choice = 0;
    while (choice < run->choice_count && run->choices[choice].events <= at) choice++;
    struct course other = copy_course(run);
    add(text, "not deterministic at choice %u: two runs with the same choices before it differ\n", choice);
    add_side(text, "one run", run, first, at);
    add_side(text, "another run", run, &other, at);
    free(other.events);
}

/* Returns the text of runs that differ though their choices are the same: makes them again until two differ. */
static char *tell_difference(struct search *s, const struct finding *f) {
    struct text text = {NULL, 0};
    char words[WORDS];
    comes_again(s, f);
    const struct explore_run *run = s->programs[0].run;
    struct course first = copy_course(run);
    uint32_t at = first.count;
    bool differs = false;
    for (int repeat = 0; repeat < REPEATS && !differs; repeat++) {
        comes_again(s, f);
        at = first_difference(&first, run);
        differs = at < first.count || run->event_count != first.count;
    }
    if (differs) add_difference(&text, &first, run, at);
    else add(&text, "not deterministic: once, the same choices led to another run\n");
    if (f->outcome.failure != FAILED_DIFFERS) add(&text, "  Once it was: %s\n", outcome_words(run, f->outcome, words));
    free(first.events);
    return text.bytes;
}
