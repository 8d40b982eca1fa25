/* Opens, joins, leaves, shuts down and closes kernels. Tested, not proved. */
_Static_assert(NEUTRINO_VERSION == BALSAEUCHRE_VERSION, "both headers are of one version");

static pthread_once_t once = PTHREAD_ONCE_INIT;
static pthread_key_t ending; /* a thread's key: its destructor leaves the kernel */
static int refused;          /* the error with which the host refused the key or the handler */

static void leave_at_end(void *place) {
    (void)place;
    if (self) neutrino_leave();
}

/* Runs in a forked child. Its only thread may have inherited the lock while another thread held it. */
static void forget(void) { self = NULL; }

static void prepare(void) {
    refused = pthread_key_create(&ending, leave_at_end);
    if (!refused) refused = pthread_atfork(NULL, NULL, forget);
}

/* Fails if this thread may not take the lock. EPERM: in a forked child. EDEADLK: inside a call. */
static int refuse(const neutrino *k) { return k->process != getpid() ? fail(EPERM) : inside ? fail(EDEADLK) : 0; }

/* Fills the roster with the threads, and with a clock for each process. A clock has a number that no thread
 * has. Returns the roster's length. */
static size_t roster_of(neutrino *k, const struct neutrino_thread *threads, size_t count, balsaeuchre_thread *roster) {
    bool is_taken[256] = {true}, has_clock[256] = {false};
    size_t length = count;
    int clock = UINT8_MAX;
    for (size_t at = 0; at < count; at++) {
        roster[at] = (balsaeuchre_thread){threads[at].tid, threads[at].pid, threads[at].priority};
        is_taken[threads[at].tid] = true;
    }
    for (size_t at = 0; at < count; at++) {
        uint8_t pid = threads[at].pid;
        if (has_clock[pid]) continue;
        while (is_taken[clock]) clock--;
        is_taken[clock] = has_clock[pid] = true;
        k->clock_of[pid] = (uint8_t)clock;
        roster[length++] = (balsaeuchre_thread){(uint8_t)clock, pid, 1};
    }
    return length;
}

/* Fills in a kernel. Returns 0 or an errno. */
static int open_kernel(neutrino *k, const struct neutrino_thread *threads, size_t count) {
    balsaeuchre_thread roster[2 * PLACES] = {{0, 0, 0}};
    memset(k, 0, offsetof(neutrino, rows));
    uint32_t error = balsaeuchre_open(roster, roster_of(k, threads, count, roster), &k->library);
    if (error) return host_error(error);
    k->process = getpid();
    cpu_set_t cpus;
    int looks = sched_getaffinity(0, sizeof cpus, &cpus) || CPU_COUNT(&cpus) > 1 ? WORD_LOOKS : -1;
    memset(k->place_of, PLACES, sizeof k->place_of);
    for (size_t at = 0; at < count; at++) {
        k->place_of[threads[at].tid] = (uint8_t)at;
        k->places[at] = (struct place){.word = ENDED, .tid = threads[at].tid, .pid = threads[at].pid, .looks = looks};
    }
    open_tables(k);
    pthread_mutex_init(&k->lock, NULL);
    return 0;
}

static void say_version(const char *part, uint32_t version) {
    uint32_t number = version & ~BALSAEUCHRE_UNPROVED;
    const char *proof = version & BALSAEUCHRE_UNPROVED ? ", unproved" : "";
    dprintf(STDERR_FILENO, "balsaeuchre: %s has version %u.%u%s\n", part, number / 100, number % 100, proof);
}

/* Whether the program's header, this layer and the library have the same version. If not, prints the three
 * versions on standard error. */
static bool is_one_version(uint32_t header) {
    uint32_t library = balsaeuchre_version();
    if (header == NEUTRINO_VERSION && library == NEUTRINO_VERSION) return true;
    say_version("the program's header", header);
    say_version("the layer of threads", NEUTRINO_VERSION);
    say_version("the library", library);
    dprintf(STDERR_FILENO, "balsaeuchre: these have to be the same: compile and link with the files of one install\n");
    return false;
}

neutrino *neutrino_open_version(uint32_t version, const struct neutrino_thread *threads, size_t count) {
    int error = is_one_version(version) ? 0 : ENOEXEC;
    if (!error && !pthread_once(&once, prepare)) error = refused;
    if (!error) error = count > PLACES ? EAGAIN : count ? 0 : EINVAL;
    for (size_t at = 0; !error && at < count; at++) {
        if (!threads[at].tid || !threads[at].pid) error = EINVAL;
    }
    neutrino *k = error ? NULL : aligned_alloc(_Alignof(neutrino), sizeof *k);
    if (k) error = open_kernel(k, threads, count);
    else if (!error) error = ENOMEM;
    if (!error) return k;
    free(k);
    errno = error;
    return NULL;
}

/* Takes the place of a thread. Returns null and sets errno on an error. */
static struct place *take_place(neutrino *k, int tid) {
    if (tid < 0 || tid > UINT8_MAX || k->place_of[tid] == PLACES) {
        errno = ESRCH;
        return NULL;
    }
    struct place *p = &k->places[k->place_of[tid]];
    lock(k);
    bool is_taken = p->joined;
    if (!is_taken) p->cancelled = false;
    p->joined = true;
    k->joined += !is_taken;
    unlock(k);
    if (is_taken) {
        errno = EBUSY;
        return NULL;
    }
    p->states = 0;
    p->interruptible = false;
    return p;
}

static void leave_place(neutrino *k, struct place *p) {
    lock(k);
    p->joined = false;
    k->joined--;
    unlock(k);
}

int neutrino_join(neutrino *k, int tid) {
    if (refuse(k)) return -1;
    if (self) return fail(EBUSY);
    struct place *p = take_place(k, tid);
    if (!p) return -1;
    kernel = k;
    self = p;
    if (!pthread_setspecific(ending, p)) return 0;
    neutrino_leave();
    return fail(ENOMEM);
}

int neutrino_leave(void) {
    if (refuse_call()) return -1;
    struct place *p = self;
    self = NULL;
    leave_place(kernel, p);
    pthread_setspecific(ending, NULL);
    return 0;
}

int neutrino_act_as(neutrino *k, int tid, void (*work)(void *argument), void *argument) {
    if (refuse(k)) return -1;
    struct place *own = self, *p = take_place(k, tid);
    neutrino *own_kernel = kernel;
    if (!p) return -1;
    kernel = k;
    self = p;
    work(argument);
    kernel = own_kernel;
    self = own;
    leave_place(k, p);
    return 0;
}

int neutrino_shutdown(neutrino *k) {
    if (refuse(k)) return -1;
    struct call c = {.request = {.kind = BALSAEUCHRE_SHUTDOWN, .thread = k->clock_of[k->places[0].pid]}};
    uint64_t asleep = 0;
    lock(k);
    uint32_t error = make_in_library(k, &c, 0, &k->event);
    if (!error) asleep = tell(k, deliver_all(k));
    unlock(k);
    wake(k, asleep);
    return error ? fail(host_error(error)) : 0;
}

int neutrino_close(neutrino *k) {
    if (refuse(k)) return -1;
    lock(k);
    bool busy = k->joined;
    unlock(k);
    if (busy) return fail(EBUSY);
    balsaeuchre_close(&k->library);
    pthread_mutex_destroy(&k->lock);
    free(k->event.bytes);
    free(k->side.bytes);
    free(k);
    return 0;
}
