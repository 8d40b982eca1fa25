/* The file of a failing run. Tested, not proved.
 *
 * A line has a word and its value. Each word of the command is a line. A choice has its number, the choice, and the
 * state before it. */
static const char kept_first[] = "balsaeuchre-explore " EXPLORE_VERSION;

static void write_kept(const struct options *o, const struct finding *f) {
    FILE *file = fopen(o->kept, "w");
    if (!file) give_up("%s: %s", o->kept, strerror(errno));
    fprintf(file, "%s\n", kept_first);
    for (char **word = o->words; *word; word++) fprintf(file, "word %s\n", *word);
    if (o->expect && strcmp(o->expect, "-")) fprintf(file, "expect %s\n", o->expect);
    fprintf(file, "calls %ld\nerrors %d\nsteps %d\nearly %d\nfailure %d %d\n", o->calls, o->errors, o->every_step,
            f->early, (int)f->outcome.failure, f->outcome.detail);
    for (uint32_t at = 0; at < f->length; at++)
        fprintf(file, "choice %u %u %016llx\n", at + 1, f->choices[at], (unsigned long long)f->states[at]);
    if (fclose(file)) give_up("%s: %s", o->kept, strerror(errno));
}

/* Adds a word of the command. */
static void add_word(struct options *o, int *count, const char *word) {
    o->words = realloc(o->words, ((size_t)*count + 2) * sizeof *o->words);
    if (!o->words || !(o->words[*count] = strdup(word))) give_up("there is no memory");
    o->words[++*count] = NULL;
}

static void add_choice(struct finding *f, unsigned choice, unsigned long long state) {
    f->choices = realloc(f->choices, f->length + 1u);
    f->states = realloc(f->states, (f->length + 1u) * sizeof *f->states);
    if (!f->choices || !f->states) give_up("there is no memory");
    f->choices[f->length] = (uint8_t)choice;
    f->states[f->length++] = state;
}

/* Reads a line. Returns false if it has no meaning. */
static bool read_line(struct options *o, struct finding *f, const char *line, int *words) {
    unsigned number, choice;
    unsigned long long state;
    int failure, detail, flag;
    if (!strncmp(line, "word ", 5)) return add_word(o, words, line + 5), true;
    if (sscanf(line, "calls %ld", &o->calls) == 1) return true;
    if (!strncmp(line, "expect ", 7)) return (o->expect = strdup(line + 7)) != NULL;
    if (sscanf(line, "errors %d", &flag) == 1) return o->errors = flag, true;
    if (sscanf(line, "steps %d", &flag) == 1) return o->every_step = flag, true;
    if (sscanf(line, "early %d", &flag) == 1) return f->early = flag, true;
    if (sscanf(line, "failure %d %d", &failure, &detail) == 2) {
        f->outcome = (struct outcome){(enum failure)failure, detail};
        return failure > PASSED && failure <= FAILED_DIFFERS;
    }
    bool is_choice = sscanf(line, "choice %u %u %llx", &number, &choice, &state) == 3;
    if (!is_choice || number != f->length + 1 || choice > CLOCK || number > CHOICES) return false;
    add_choice(f, choice, state);
    return true;
}

/* Reads the file of a failing run: its command and options, and its choices. */
static void read_kept(struct options *o, struct finding *f) {
    char line[4096];
    int number = 0, words = 0;
    FILE *file = fopen(o->replay, "r");
    if (!file) give_up("%s: %s", o->replay, strerror(errno));
    o->words = NULL;
    while (fgets(line, sizeof line, file)) {
        number++;
        line[strcspn(line, "\n")] = 0;
        bool is_good = number == 1 ? !strcmp(line, kept_first) : read_line(o, f, line, &words);
        if (is_good) continue;
        if (number == 1)
            give_up("%s:1: expected `%s`, found `%.60s`: name a file that --write has written", o->replay, kept_first,
                    line);
        give_up("%s:%d: expected a word, an option or choice %u, found `%.60s`", o->replay, number, f->length + 1,
                line);
    }
    fclose(file);
    if (!o->words) give_up("%s: expected the line `word PROGRAM`, found none", o->replay);
}
