/* The begin of an explored run: a server that forks a child for each run. Tested, not proved.
 *
 * The program stops before main, when it has no thread yet. balsaeuchre-explore writes a run's plan to the shared
 * memory, and a command to a pipe. The server forks, and answers with the child's pid and then with its status. */
static void write_answer(int number) {
    if (write(ANSWERS_FILE, &number, sizeof number) != sizeof number) _exit(126);
}

/* Makes a run in a child for each command. Returns in the child, and ends the server after the last command. */
static void serve_runs(void) {
    int command, status;
    write_answer(1);
    while (read(COMMANDS_FILE, &command, sizeof command) == sizeof command) {
        pid_t child = fork();
        if (!child) return;
        write_answer(child);
        while (waitpid(child, &status, 0) == -1 && errno == EINTR) continue;
        write_answer(status);
    }
    _exit(0);
}

/* The end of the program, after its own functions of atexit. */
static void step_exit(void) {
    if (!explores()) return;
    step_if_explored(DO_EXIT);
    note_end();
}

/* The end of the program without its functions of atexit. */
_Noreturn void neutrino__exit(int status) {
    step_exit();
    _exit(status);
}

static void refuse_fork(void) {
    if (exploring) end_run(FORKED);
}

static void *map_file(int file, size_t size) {
    void *mapped = mmap(NULL, size, PROT_READ | PROT_WRITE, MAP_SHARED, file, 0);
    if (mapped != MAP_FAILED) return mapped;
    dprintf(STDERR_FILENO, "balsaeuchre: the memory of balsaeuchre-explore can't be mapped: %s\n", strerror(errno));
    _exit(126);
}

__attribute__((constructor(101))) static void begin_exploring(void) {
    void *frame[1];
    const char *version = getenv(EXPLORE_VARIABLE);
    if (!version) return;
    if (strcmp(version, EXPLORE_VERSION)) {
        dprintf(STDERR_FILENO,
                "balsaeuchre: balsaeuchre-explore has the version %s of explored runs, and the program's "
                "library has %s: use the files of one install\n",
                version, EXPLORE_VERSION);
        _exit(126);
    }
    run = map_file(RUN_FILE, sizeof *run);
    states = map_file(STATES_FILE, sizeof *states);
    run->has_tsan = has_tsan();
    backtrace(frame, 1); /* loads what it needs */
    unsetenv(EXPLORE_VARIABLE);
    serve_runs();
    for (int file = RUN_FILE; file <= ANSWERS_FILE; file++) close(file);
    exploring = true;
    me = last = new_task(0);
    me->thread = pthread_self();
    me->host = getpid();
    pthread_atfork(refuse_fork, NULL, NULL);
    atexit(step_exit);
    use_crash_stack();
    watch_crashes();
}

/* Explores the calls of the program's kernel, which has just been opened. */
static void explore_kernel(void) {
    if (!exploring) return;
    if (neutrino_remote()) end_run(REMOTE);
    neutrino_set_scheduler(kernel, &scheduler);
}
