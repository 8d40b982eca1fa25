/* An explored program: its start as a server, and its runs. Tested, not proved. */
#include <dirent.h>
#include <fcntl.h>
#include <limits.h>
#include <poll.h>
#include <signal.h>
#include <sys/mman.h>
#include <sys/personality.h>
#include <sys/wait.h>
#include <time.h>

enum { STARTS = 10 };                      /* seconds in which a program has to start */
enum { LOOK = 100 };                       /* milliseconds between looks at a run */
static const double SPINS = 1, STOPS = 10; /* seconds of the processor, and idle ones, without an event, */
enum { SLOWER = 20 };                      /* and how many times as long with ThreadSanitizer */
enum { STATE_TEXT = 512 };                 /* bytes */

static int states_file = -1;
static struct explore_states *visited;

_Noreturn __attribute__((format(printf, 1, 2))) static void give_up(const char *form, ...);

static double seconds_now(void) {
    struct timespec now;
    clock_gettime(CLOCK_MONOTONIC, &now);
    return (double)now.tv_sec + (double)now.tv_nsec / 1e9;
}

/* Returns a file in memory, which several processes use. */
static int memory_file(const char *name, size_t size) {
    int file = memfd_create(name, MFD_CLOEXEC);
    if (file == -1 || ftruncate(file, (off_t)size)) give_up("there is no memory: %s", strerror(errno));
    return file;
}

static void *map_memory(int file, size_t size) {
    void *mapped = mmap(NULL, size, PROT_READ | PROT_WRITE, MAP_SHARED, file, 0);
    if (mapped == MAP_FAILED) give_up("memory can't be mapped: %s", strerror(errno));
    return mapped;
}

static void open_states(void) {
    states_file = memory_file("states", sizeof *visited);
    visited = map_memory(states_file, sizeof *visited);
}

/* Forgets the visited states, before a search with other rules. */
static void forget_states(void) {
    if (ftruncate(states_file, 0) || ftruncate(states_file, sizeof *visited)) give_up("there is no memory");
}

/* Opens a file to which runs append, and which is emptied between them. */
static int output_file(void) {
    int file = memory_file("output", 0);
    fcntl(file, F_SETFL, O_APPEND);
    return file;
}

/* Sets ThreadSanitizer's options, before the user's own. Names of functions take it seconds, so that only the run that
 * is told has them. */
static void set_tsan_options(bool symbolizes) {
    const char *own = getenv("TSAN_OPTIONS");
    char *all = NULL;
    if (asprintf(&all, "die_after_fork=0:atexit_sleep_ms=0:symbolize=%d:%s", symbolizes, own ? own : "") < 0) return;
    setenv("TSAN_OPTIONS", all, 1);
    free(all);
}

/* Becomes the program, in a child. from has the files that the program gets as RUN_FILE and so on. */
_Noreturn static void become_program(const struct program *p, char **words, const int from[4], const char *record) {
    int held[4];
    for (int at = 0; at < 4; at++) held[at] = fcntl(from[at], F_DUPFD, ANSWERS_FILE + 1);
    for (int at = 0; at < 4; at++) dup2(held[at], RUN_FILE + at);
    for (int at = 0; at < 4; at++) close(held[at]);
    int null = open("/dev/null", O_RDONLY | O_CLOEXEC);
    dup2(null, STDIN_FILENO);
    if (!p->shows) dup2(p->output, STDOUT_FILENO);
    if (!p->shows) dup2(p->errors, STDERR_FILENO);
    setenv(EXPLORE_VARIABLE, EXPLORE_VERSION, 1);
    unsetenv("BALSAEUCHRE_RECORD");
    unsetenv("BALSAEUCHRE_CIRCLES");
    if (record) setenv("BALSAEUCHRE_RECORD", record, 1);
    set_tsan_options(p->symbolizes);
    personality(ADDR_NO_RANDOMIZE);
    execvp(words[0], words);
    dprintf(STDERR_FILENO, "%s: %s\n", words[0], strerror(errno));
    _exit(127);
}

/* Reads a number from the server. Returns whether it came in time. */
static bool read_number(const struct program *p, int *number, int milliseconds) {
    struct pollfd waits = {.fd = p->answers, .events = POLLIN};
    if (poll(&waits, 1, milliseconds) != 1) return false;
    return read(p->answers, number, sizeof *number) == sizeof *number;
}

/* Returns the text that runs have written to a file. */
static char *text_of(int file, size_t *length) {
    off_t size = lseek(file, 0, SEEK_END);
    char *text = malloc((size_t)size + 1);
    ssize_t got = text ? pread(file, text, (size_t)size, 0) : -1;
    if (got < 0) give_up("there is no memory");
    text[got] = 0;
    if (length) *length = (size_t)got;
    return text;
}

_Noreturn static void refuse_program(const struct program *p, char **words) {
    char *said = p->shows ? strdup("") : text_of(p->errors, NULL);
    char *end = strchr(said, '\n');
    if (end) *end = 0;
    if (*said) give_up("%s can't be explored: %s", words[0], said);
    give_up("%s isn't a program over balsaeuchre-qnx: build it with `pkg-config --cflags --libs balsaeuchre-qnx`",
            words[0]);
}

/* Starts a program, which stops before its main. */
static void start_program(struct program *p, char **words, const char *record) {
    int commands[2], answers[2], begun = 0;
    int memory = memory_file("run", sizeof *p->run);
    p->run = map_memory(memory, sizeof *p->run);
    p->output = output_file();
    p->errors = output_file();
    if (pipe2(commands, O_CLOEXEC) || pipe2(answers, O_CLOEXEC)) give_up("there is no pipe: %s", strerror(errno));
    const int from[4] = {memory, states_file, commands[0], answers[1]};
    p->server = fork();
    if (!p->server) become_program(p, words, from, record);
    close(memory);
    close(commands[0]);
    close(answers[1]);
    p->commands = commands[1];
    p->answers = answers[0];
    if (p->server == -1 || !read_number(p, &begun, STARTS * 1000) || begun != 1) refuse_program(p, words);
}

static void stop_program(struct program *p) {
    close(p->commands);
    close(p->answers);
    close(p->output);
    close(p->errors);
    waitpid(p->server, NULL, 0);
    munmap(p->run, sizeof *p->run);
}

static void empty(int file) {
    if (lseek(file, 0, SEEK_END) > 0 && ftruncate(file, 0)) give_up("a file can't be emptied: %s", strerror(errno));
}

/* Writes a request to the memory of the run. */
static void put_request(struct program *p, const struct options *o, const struct request *r) {
    struct explore_run *run = p->run;
    bool has_next = r->next != DEFAULT_CHOICE;
    p->planned = r->length + has_next;
    if (r->length) memcpy(run->plan, r->plan, r->length);
    if (has_next) run->plan[r->length] = r->next;
    run->planned = p->planned;
    run->policy = r->policy;
    run->most_events = (uint32_t)o->calls;
    run->early = r->early;
    run->every_step = o->every_step;
    run->tells_failures = o->errors;
    run->depth = r->depth;
    run->length = r->expected_length;
    run->cuts = r->cuts;
    run->cost = r->cost;
    run->seed = r->seed;
    run->end = NOT_ENDED;
    run->choice_count = run->event_count = run->awaited_count = run->frame_count = 0;
    run->crash_signal = 0;
    run->final = 0;
    memset(run->tasks, 0, sizeof run->tasks);
}

/* Begins a run. finish_run has its end. */
static void begin_run(struct program *p, const struct options *o, const struct request *r) {
    int command = 0;
    p->request = *r;
    put_request(p, o, r);
    empty(p->output);
    empty(p->errors);
    p->was_killed = p->spins = false;
    p->seen_events = 0;
    p->looked_at = seconds_now();
    p->idle = 0;
    p->seen_cpu = 0;
    bool is_sent = write(p->commands, &command, sizeof command) == sizeof command;
    if (!is_sent || !read_number(p, &p->child, STARTS * 1000)) give_up("the program's server has ended");
}

/* Reads the line of the host about a process or a thread, and returns its fields after the name, or null. */
static const char *read_state(const char *path, char text[STATE_TEXT]) {
    FILE *file = fopen(path, "r");
    size_t length = file ? fread(text, 1, STATE_TEXT - 1, file) : 0;
    if (file) fclose(file);
    text[length] = 0;
    const char *after = strrchr(text, ')');
    return after && after[1] == ' ' ? after + 2 : NULL;
}

/* Returns the seconds of the processor that a process has used. */
static double processor_time(pid_t pid) {
    char path[64], text[STATE_TEXT];
    unsigned long user = 0, system = 0;
    snprintf(path, sizeof path, "/proc/%d/stat", (int)pid);
    const char *fields = read_state(path, text);
    if (!fields || sscanf(fields, "%*c %*d %*d %*d %*d %*d %*u %*u %*u %*u %*u %lu %lu", &user, &system) != 2) return 0;
    return (double)(user + system) / (double)sysconf(_SC_CLK_TCK);
}

/* Whether a thread of a process computes, or waits for a processor or for the disk. */
static bool is_busy(pid_t pid) {
    char path[64 + NAME_MAX], text[STATE_TEXT];
    bool found = false;
    snprintf(path, sizeof path, "/proc/%d/task", (int)pid);
    DIR *threads = opendir(path);
    for (const struct dirent *thread; threads && !found && (thread = readdir(threads));) {
        snprintf(path, sizeof path, "/proc/%d/task/%s/stat", (int)pid, thread->d_name);
        const char *fields = read_state(path, text);
        found = fields && (*fields == 'R' || *fields == 'D');
    }
    if (threads) closedir(threads);
    return found;
}

/* Ends a run that makes no progress: it computes, or it is idle. On a busy machine a thread may wait for a processor
 * for long, and this process too. So a look counts as LOOK at most, and only if no thread is busy. */
static void look_at_progress(struct program *p) {
    double cpu = processor_time(p->child), now = seconds_now(), since = now - p->looked_at;
    uint32_t events = p->run->event_count;
    p->looked_at = now;
    if (events != p->seen_events || !p->seen_cpu) {
        p->seen_events = events;
        p->seen_cpu = cpu > 0 ? cpu : 1e-9;
        p->idle = 0;
        return;
    }
    double factor = p->run->has_tsan ? SLOWER : 1;
    if (!is_busy(p->child)) p->idle += since < LOOK / 1e3 ? since : LOOK / 1e3;
    p->spins = cpu - p->seen_cpu >= SPINS * factor;
    if (!p->spins && p->idle < STOPS * factor) return;
    p->was_killed = true;
    kill(p->child, SIGKILL);
}

/* Waits for the end of a run. Returns whether it has ended, and the host's status. */
static bool finish_run(struct program *p, int *status, int milliseconds) {
    if (!read_number(p, status, milliseconds)) {
        int died;
        if (waitpid(p->server, &died, WNOHANG) == p->server) give_up("the program's server has ended");
        look_at_progress(p);
        return false;
    }
    p->child = 0;
    return true;
}
