/* The report of a finding. Tested, not proved. */
enum { OUTPUT_LINES = 40 };

/* A text that grows. */
struct text {
    char *bytes;
    size_t length;
};

static __attribute__((format(printf, 2, 3))) void add(struct text *text, const char *form, ...) {
    char *more = NULL;
    va_list arguments;
    va_start(arguments, form);
    int length = vasprintf(&more, form, arguments);
    va_end(arguments);
    char *longer = length < 0 ? NULL : realloc(text->bytes, text->length + (size_t)length + 1);
    if (!longer) give_up("there is no memory");
    memcpy(longer + text->length, more, (size_t)length + 1);
    text->bytes = longer;
    text->length += (size_t)length;
    free(more);
}

/* Adds the lines of a caught output, each after some spaces. */
static void add_output(struct text *text, int file) {
    char *all = text_of(file, NULL), *rest = all;
    int count = 0;
    for (char *line; (line = strsep(&rest, "\n")) && (rest || *line) && count < OUTPUT_LINES; count++)
        add(text, "  | %s\n", line);
    if (count == OUTPUT_LINES) add(text, "  | ..\n");
    free(all);
}

static const char *const failure_words[] = {
    [PASSED] = "passes",
    [FAILED_DEADLOCK] = "deadlock: no thread can run, and no time comes",
    [FAILED_RACE] = "data race, which ThreadSanitizer reports",
    [FAILED_OUTPUT] = "another output than expected",
    [FAILED_ENDLESS] = "no end: the run has as many calls as --calls allows",
    [FAILED_THREAD] = "a thread makes a call that the headers' pthread_create didn't create",
    [FAILED_FORK] = "the program forks: several programs can't be explored",
    [FAILED_DAEMON] = "the program uses a daemon's kernel: several programs can't be explored",
    [FAILED_ROOM] =
        "the program holds too many locks or barriers at a time: 1,024 locks and 256 barriers can be explored",
    [FAILED_DIFFERS] = "not deterministic",
};

/* Writes what failed, in a line. */
static const char *outcome_words(const struct explore_run *run, struct outcome outcome, char words[WORDS]) {
    char name[WORDS];
    const char *thread = task_name(run, (unsigned)outcome.detail, name);
    switch (outcome.failure) {
    case FAILED_CRASH:
        snprintf(words, WORDS, "crash by %s", strsignal(outcome.detail));
        return words;
    case FAILED_STATUS:
        snprintf(words, WORDS, "exit status %d", outcome.detail);
        return words;
    case FAILED_ERROR:
        snprintf(words, WORDS, "a call fails with %s", outcome.detail == ESRCH ? "ESRCH" : "EBADF");
        return words;
    case FAILED_SPINS:
        snprintf(words, WORDS, "%.40s computes and makes no call", thread);
        return words;
    case FAILED_STOPS:
        snprintf(words, WORDS, "%.40s makes no call: it waits for the host", thread);
        return words;
    default:
        return failure_words[outcome.failure];
    }
}

static void add_waits(struct text *text, const struct explore_run *run) {
    char name[WORDS], words[WORDS];
    for (unsigned at = 0; at < TASKS; at++) {
        const struct explore_task *t = &run->tasks[at];
        if (t->life != 1 || (at == SERVICE && !t->is_enabled)) continue;
        add(text, "  %s: %s\n", task_name(run, at, name), wait_words(run, t, words));
    }
}

/* Returns the next event of a task after some event, or null. */
static const struct explore_event *next_of(const struct explore_run *run, uint32_t from, unsigned task) {
    for (uint32_t at = from; at < run->event_count; at++) {
        if (run->events[at].task == task) return &run->events[at];
    }
    return NULL;
}

/* Writes the next operation of a task after some event: one that it made, or the one for which it waits at the end of
 * the run. */
static const char *next_words(const struct explore_run *run, uint32_t from, unsigned task, char words[WORDS]) {
    const struct explore_event *e = next_of(run, from, task);
    const struct explore_task *t = &run->tasks[task % TASKS];
    bool waits = t->life == 1 && !t->state && run->running != task;
    const struct explore_event stated = {
        .task = (uint8_t)task, .operation = t->operation, .other = TASKS, .chid = t->chid};
    if (e) return event_words(run, e, words);
    if (waits) return event_words(run, &stated, words);
    char name[WORDS];
    snprintf(words, WORDS, "%.60s goes on", task_name(run, task, name));
    return words;
}

/* Writes what an early time has led to: the end of a thread's time, or the expiry of a timer. */
static const char *early_words(const struct explore_run *run, const struct explore_choice *c, char words[WORDS]) {
    char late[WORDS];
    snprintf(words, WORDS, "a time");
    for (uint32_t at = c->events; at < run->event_count; at++) {
        const struct explore_event *e = &run->events[at];
        if (e->task == SERVICE) return "the expiry of a timer";
        if (!e->is_late) continue;
        snprintf(words, WORDS, "the end of the time of %.60s", event_words(run, e, late));
        break;
    }
    return words;
}

/* Adds the operations that came in another order than they usually do. */
static void add_order_of(struct text *text, const struct explore_run *run) {
    char words[WORDS];
    for (uint32_t at = 0; at < run->choice_count; at++) {
        const struct explore_choice *c = &run->choices[at];
        if (c->chosen == c->usual) continue;
        bool is_early = c->chosen == CLOCK;
        add(text, "  %s\n", is_early ? early_words(run, c, words) : next_words(run, c->events, c->chosen, words));
        add(text, "    before %s\n", next_words(run, c->events, c->usual, words));
    }
}

/* Returns the text of a finding, whose run is the last one of the first program. */
static char *tell_run(struct search *s, const struct finding *f) {
    const struct program *p = &s->programs[0];
    struct text text = {NULL, 0};
    char words[WORDS], place[PATH];
    add(&text, "%s\n", outcome_words(p->run, f->outcome, words));
    if (p->run->crash_signal && crash_place(p, place))
        add(&text, "  in %s, called by %s\n", place, task_name(p->run, p->run->running, words));
    if (f->outcome.failure == FAILED_DEADLOCK) add_waits(&text, p->run);
    if (f->outcome.failure == FAILED_ERROR && p->run->event_count)
        add(&text, "  %s\n", event_words(p->run, &p->run->events[p->run->event_count - 1], words));
    add_output(&text, p->errors);
    if (f->outcome.failure == FAILED_OUTPUT) add_output(&text, p->output);
    if (f->delays) add(&text, "These came in another order than usual:\n");
    add_order_of(&text, p->run);
    if (f->early_times) add(&text, "It happens only if a timeout comes early, as on a slow machine.\n");
    return text.bytes;
}
