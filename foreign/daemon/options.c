/* The options of the command line. Tested, not proved. */
#include <getopt.h>
#include <grp.h>
#include <stdarg.h>

static const char *record_file; /* or null */

static const char usage[] =
    "usage: balsaeuchred [--processes N] [--threads N] [--channels N] [--connections N] [--bytes N] [--group NAME]\n"
    "                    [--record FILE] [SOCKET]\n"
    "One kernel for the programs that run with BALSAEUCHRE_SYSTEM=SOCKET. Without SOCKET it is systemd's.\n"
    "  --processes N       programs at a time, and\n"
    "  --threads N         threads of each: processes * (threads + 1) is at most 63. Without these two options 12\n"
    "                      programs have 18, 8, 5, 4, 3, 3, 2, 2, 2, 2, 1 and 1 threads, in this turn\n"
    "  --channels 16       channels of each, of 64 in all\n"
    "  --connections 256   connections of each, of 1,024 in all\n"
    "  --bytes 8388608     bytes of the open calls of each\n"
    "  --group NAME        whose members may connect, too, beside the same user\n"
    "  --record FILE.names writes all calls as a script with names, for qdemo\n"
    "  --version           prints the version, and \"unproved\" if the kernel is of an unproved library\n"
    "  --help              prints this\n"
    "SOCKET.lock is held while the daemon runs, so that one daemon has SOCKET. The file stays after the end.\n";

static const struct {
    int *limit, most;
} numbers[] = {
    {&limits.processes, PROCESSES - 1},       {&limits.threads, PLACES - 2}, {&limits.channels, CHANNEL_PLACES},
    {&limits.connections, CONNECTION_PLACES}, {&limits.bytes, INT_MAX},
};
enum { NUMBERS = sizeof numbers / sizeof *numbers };

/* An option with a number has the index of its limit in the table above. */
static const struct option options[] = {
    {"processes", required_argument, NULL, 0}, {"threads", required_argument, NULL, 1},
    {"channels", required_argument, NULL, 2},  {"connections", required_argument, NULL, 3},
    {"bytes", required_argument, NULL, 4},     {"group", required_argument, NULL, 'g'},
    {"record", required_argument, NULL, 'r'},  {"version", no_argument, NULL, 'v'},
    {"help", no_argument, NULL, 'h'},          {NULL, 0, NULL, 0},
};

/* Reports on standard error why the daemon doesn't start. Returns false. */
__attribute__((format(printf, 1, 2))) static bool complain(const char *format, ...) {
    va_list words;
    va_start(words, format);
    fputs("balsaeuchred: ", stderr);
    vfprintf(stderr, format, words);
    fputs("\n", stderr);
    va_end(words);
    return false;
}

/* Reads a text that is a whole number from least to most, and nothing else. Returns whether it is. */
static bool read_number(const char *text, long least, long most, long *number) {
    char *end;
    if (!text || *text < '0' || *text > '9') return false;
    errno = 0;
    *number = strtol(text, &end, 10);
    return !errno && !*end && *number >= least && *number <= most;
}

static bool read_limit(int at, const char *text) {
    long number;
    if (!read_number(text, 1, numbers[at].most, &number))
        return complain("--%s: expected a whole number from 1 to %d, found '%s'", options[at].name, numbers[at].most,
                        text);
    *numbers[at].limit = (int)number;
    return true;
}

static bool read_group(const char *name) {
    const struct group *group = getgrnam(name);
    if (!group) return complain("--group: expected the name of a group, found '%s'", name);
    limits.group = group->gr_gid;
    limits.has_group = true;
    return true;
}

/* Without options for processes and threads, both are as in usual_threads. With one of the options, the other
 * limit is as great as possible. Returns whether both fit. */
static bool fill_limits(void) {
    int *processes = &limits.processes, *threads = &limits.threads;
    if (!*processes && !*threads) *processes = sizeof usual_threads / sizeof *usual_threads;
    else if (!*threads) *threads = (PLACES - 1) / *processes - 1;
    else if (!*processes) *processes = (PLACES - 1) / (*threads + 1);
    if (*processes >= PROCESSES) *processes = PROCESSES - 1;
    if (*processes * (*threads + 1) < PLACES) return true;
    return complain("--processes %d --threads %d: expected processes * (threads + 1) to be at most %d, found %d",
                    *processes, *threads, PLACES - 1, *processes * (*threads + 1));
}

/* Reads one option, as getopt_long returns it. word is the last word that getopt_long has read. */
static bool read_option(int option, const char *word) {
    if (option >= 0 && option < NUMBERS) return read_limit(option, optarg);
    if (option == 'g') return read_group(optarg);
    if (option == ':') return complain("%s: expected a value, found none", word);
    bool is_letter = option == '?' && optopt && optopt != 'h';
    if (is_letter) return complain("-%c: there is no such option", optopt);
    if (option == '?') return complain("%s: there is no such option", word);
    record_file = optarg;
    return true;
}

/* Reads the options, and the path that may follow them. Returns -1, or the status with
 * which the daemon ends at once. */
static int read_options(int count, char **words, const char **path) {
    bool right = true;
    opterr = 0;
    for (int option; right && (option = getopt_long(count, words, ":h", options, NULL)) != -1;) {
        if (option == 'h') return fputs(usage, stdout) < 0 || fflush(stdout);
        if (option == 'v') return print_version("balsaeuchred");
        right = read_option(option, words[optind - 1]);
    }
    if (right && count - optind > 1)
        right = complain("expected one SOCKET, found '%s' and '%s'", words[optind], words[optind + 1]);
    if (right && fill_limits()) {
        *path = count > optind ? words[optind] : NULL;
        return -1;
    }
    fputs("usage: balsaeuchred [OPTION].. [SOCKET]; balsaeuchred --help lists the options\n", stderr);
    return 2;
}
