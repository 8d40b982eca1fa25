/* The options of the command line. Tested, not proved. */
#include <getopt.h>

static const char usage[] =
    "usage: balsaeuchre-explore [OPTION..] -- PROGRAM [ARGUMENT..]\n"
    "       balsaeuchre-explore --replay FILE [--record FILE.names]\n"
    "Runs a program over balsaeuchre-qnx again and again, each time with another order of its threads' calls, and "
    "tells\n"
    "how a run fails.\n"
    "  --delays N        at most so many choices other than the usual one, which is that the same thread goes on (3)\n"
    "  --random-runs N   so many random runs before those with delays (300)\n"
    "  --random          only random runs\n"
    "  --pct N           only runs with random priorities, which change N - 1 times\n"
    "  --races           all orders of the calls that depend on one another, with no bound\n"
    "  --no-early        leaves out the second phase, in which a timeout may come while a thread can run\n"
    "  --runs N          at most so many runs\n"
    "  --time SECONDS    at most so long (60, or no limit with --runs or --races)\n"
    "  --calls N         a run with more calls has no end (20000)\n"
    "  --seed N          of the random choices (1)\n"
    "  --jobs N          so many runs at a time (1)\n"
    "  --errors          a call that fails with ESRCH or EBADF fails the run\n"
    "  --expect FILE     a run that prints something else fails; - is what the first run prints\n"
    "  --all             goes on after a failure, and tells each kind once\n"
    "  --write FILE      where the failing run is kept (explored.run)\n"
    "  --record FILE.names\n"
    "                    writes the failing run as a script with names, for qdemo\n"
    "  --replay FILE     makes a kept run again, with its output\n"
    "  --json            prints the results as JSON\n"
    "  --no-shorten      tells the failing run as it was found\n"
    "  --no-reduction, --every-step\n"
    "                    make runs that can't differ, too; to test the explorer\n"
    "  --version         prints the version\n"
    "  --help            prints this\n"
    "Status 0: no run failed. 1: a run failed. 2: a wrong option. 3: the program can't be explored.\n";

_Noreturn static void give_up(const char *form, ...) {
    va_list arguments;
    va_start(arguments, form);
    fprintf(stderr, "balsaeuchre-explore: ");
    vfprintf(stderr, form, arguments);
    fprintf(stderr, "\n");
    va_end(arguments);
    exit(UNUSABLE);
}

_Noreturn __attribute__((format(printf, 1, 2))) static void refuse(const char *form, ...) {
    va_list arguments;
    va_start(arguments, form);
    fprintf(stderr, "balsaeuchre-explore: ");
    vfprintf(stderr, form, arguments);
    fprintf(stderr, "; balsaeuchre-explore --help lists the options\n");
    va_end(arguments);
    exit(USAGE);
}

/* Returns the number of an option from least to most. */
static long number_of(const char *option, const char *text, long least, long most) {
    char *end;
    errno = 0;
    long number = strtol(text, &end, 10);
    bool is_number = *text && !*end && !errno;
    if (!is_number || number < least || number > most)
        refuse("--%s: expected a number from %ld to %ld, found `%s`", option, least, most, text);
    return number;
}

static double seconds_of(const char *text) {
    char *end;
    double seconds = strtod(text, &end);
    if (!*text || *end || !(seconds > 0) || seconds > 1e9) refuse("--time: expected seconds, found `%s`", text);
    return seconds;
}

enum word {
    O_DELAYS = 1,
    O_RANDOM_RUNS,
    O_RANDOM,
    O_PCT,
    O_RACES,
    O_NO_EARLY,
    O_RUNS,
    O_TIME,
    O_CALLS,
    O_SEED,
    O_JOBS,
    O_ERRORS,
    O_EXPECT,
    O_ALL,
    O_WRITE,
    O_RECORD,
    O_REPLAY,
    O_JSON,
    O_NO_SHORTEN,
    O_NO_REDUCTION,
    O_EVERY_STEP,
    O_VERSION,
    O_HELP
};

static const struct option words[] = {
    {"delays", 1, NULL, O_DELAYS},
    {"random-runs", 1, NULL, O_RANDOM_RUNS},
    {"random", 0, NULL, O_RANDOM},
    {"pct", 1, NULL, O_PCT},
    {"races", 0, NULL, O_RACES},
    {"no-early", 0, NULL, O_NO_EARLY},
    {"runs", 1, NULL, O_RUNS},
    {"time", 1, NULL, O_TIME},
    {"calls", 1, NULL, O_CALLS},
    {"seed", 1, NULL, O_SEED},
    {"jobs", 1, NULL, O_JOBS},
    {"errors", 0, NULL, O_ERRORS},
    {"expect", 1, NULL, O_EXPECT},
    {"all", 0, NULL, O_ALL},
    {"write", 1, NULL, O_WRITE},
    {"record", 1, NULL, O_RECORD},
    {"replay", 1, NULL, O_REPLAY},
    {"json", 0, NULL, O_JSON},
    {"no-shorten", 0, NULL, O_NO_SHORTEN},
    {"no-reduction", 0, NULL, O_NO_REDUCTION},
    {"every-step", 0, NULL, O_EVERY_STEP},
    {"version", 0, NULL, O_VERSION},
    {"help", 0, NULL, O_HELP},
    {NULL, 0, NULL, 0},
};

/* Takes an option with a value. */
static void take_value(struct options *o, int word, const char *value) {
    switch (word) {
    case O_DELAYS:
        o->delays = number_of("delays", value, 0, 255);
        break;
    case O_RANDOM_RUNS:
        o->random_runs = number_of("random-runs", value, 0, 1000000000);
        break;
    case O_PCT:
        o->strategy = ONLY_PCT;
        o->depth = number_of("pct", value, 1, 100);
        break;
    case O_RUNS:
        o->runs = number_of("runs", value, 1, 1000000000);
        break;
    case O_TIME:
        o->seconds = seconds_of(value);
        break;
    case O_CALLS:
        o->calls = number_of("calls", value, 1, EVENTS - 1);
        break;
    case O_SEED:
        o->seed = (uint64_t)number_of("seed", value, 0, 1000000000);
        break;
    case O_JOBS:
        o->jobs = number_of("jobs", value, 1, JOBS);
        break;
    case O_EXPECT:
        o->expect = value;
        break;
    case O_WRITE:
        o->kept = value;
        break;
    case O_RECORD:
        o->record = value;
        break;
    default:
        o->replay = value;
    }
}

static void print_version(void) {
    printf("balsaeuchre-explore 0.%d%s\n", NEUTRINO_VERSION_OF_EXPLORE, IS_UNPROVED ? ", unproved" : "");
    exit(OK);
}

static void take_option(struct options *o, int word) {
    if (word == '?') refuse("expected an option or --, found another word");
    if (word == O_HELP) exit(fputs(usage, stdout) < 0);
    if (word == O_VERSION) print_version();
    if (word == O_RANDOM) o->strategy = ONLY_RANDOM;
    else if (word == O_RACES) o->strategy = ONLY_RACES;
    else if (word == O_NO_EARLY) o->no_early = true;
    else if (word == O_ERRORS) o->errors = true;
    else if (word == O_ALL) o->all = true;
    else if (word == O_JSON) o->json = true;
    else if (word == O_NO_SHORTEN) o->no_shorten = true;
    else if (word == O_NO_REDUCTION) o->no_reduction = true;
    else if (word == O_EVERY_STEP) o->every_step = true;
    else take_value(o, word, optarg);
}

static struct options read_options(int count, char **arguments) {
    struct options o = {.delays = 3, .random_runs = 300, .calls = 20000, .jobs = 1, .seed = 1, .kept = "explored.run"};
    for (int word; (word = getopt_long(count, arguments, "+", words, NULL)) != -1;) take_option(&o, word);
    o.words = arguments + optind;
    if (o.replay && *o.words) refuse("--replay: expected no program, found `%s`: FILE has the program", *o.words);
    if (!o.replay && !*o.words) refuse("expected a program after --, found none");
    if (!o.seconds && !o.runs && o.strategy != ONLY_RACES) o.seconds = 60;
    return o;
}
