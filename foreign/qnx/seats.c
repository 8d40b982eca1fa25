/* The program's kernel, which its first call opens, and the seats of its threads. Tested, not proved.
 *
 * A seat is a thread number of the kernel. pthread_create reserves a seat, so threads are numbered in the
 * order in which they are created. A thread joins the kernel with its seat at its first call. If no seat was
 * free when the thread was created, it takes a seat at its first call. If no seat is free then, it takes a
 * seat that is only reserved for another thread. If all seats are taken, it waits for PATIENCE seconds.
 */
#ifndef PATIENCE
#define PATIENCE 10 /* seconds */
#endif

enum { OWN_STACK = 1 << 18 }; /* the bytes of a stack of the front's own threads */
enum use { FREE, RESERVED, TAKEN };

struct seat {
    enum use use;
    unsigned ticket; /* of the reservation */
    pthread_t thread;
    pid_t host;   /* the host's number of the thread */
    int priority; /* as it was last set */
    int policy;
    char *parts[2]; /* buffers in which parts are gathered: sent bytes, and room for received bytes */
    size_t longest[2];
};

static struct seat seats[SEATS + 1]; /* by tid; the first is not used */
static pthread_cond_t given_back = PTHREAD_COND_INITIALIZER;
static unsigned tickets;
static neutrino *kernel;
static pid_t program;
static pthread_key_t ending; /* its destructor gives back the seat of a thread that ends */
static pthread_once_t once = PTHREAD_ONCE_INIT;
static int refused; /* the error with which the host refused the key or the handlers of forks */

static _Thread_local volatile sig_atomic_t unlocked_forks; /* forks that the thread is in without the lock */

/* The calling thread's seat, or 0; and the seat that is reserved for it, or 0. */
static _Thread_local int seat, reserved;
static _Thread_local unsigned ticket;

static void end_thread(void *argument);
static void forget_all(void);
static void start_service(void);
static void record_seat(int tid, pthread_t thread);
static const struct neutrino_hooks *hooks_of_run(void);

/* Takes the lock before a fork, so that no other thread is in the middle of a change of the tables. A handler
 * that has interrupted a call forks without the lock: its own thread may have the lock, or may have something
 * for which the thread with the lock waits. */
static void before_fork(void) {
    if (holding || neutrino_inside()) unlocked_forks++;
    else hold();
}

static void after_fork(void) {
    if (unlocked_forks) unlocked_forks--;
    else release();
}

static void prepare(void) {
    refused = pthread_key_create(&ending, end_thread);
    if (!refused) refused = pthread_atfork(before_fork, after_fork, forget_all);
}

/* The priority and the policy of a thread for which nothing else is set. */
static const struct seat usual = {.priority = USUAL, .policy = SCHED_RR};

/* Reserves the first free seat, for a thread that the caller creates or for the caller. Returns 0 if none is
 * free. The caller has the lock. */
static int reserve(const struct seat *as) {
    for (int tid = 1; tid <= SEATS; tid++) {
        if (seats[tid].use != FREE) continue;
        seats[tid] = *as;
        seats[tid].use = RESERVED;
        seats[tid].ticket = ++tickets;
        return tid;
    }
    return 0;
}

/* Returns whether the seat that was reserved for the calling thread is still reserved for it. The caller has
 * the lock. */
static bool has_reserved(void) {
    return reserved && seats[reserved].use == RESERVED && seats[reserved].ticket == ticket;
}

/* Takes a seat for the calling thread: the seat that is reserved for it, or a free seat, or a seat that is
 * reserved for another thread. Returns 0 if all are taken. The caller has the lock. */
static int take(void) {
    int tid = has_reserved() ? reserved : reserve(&usual);
    for (int at = SEATS; !tid && at > 0; at--) {
        if (seats[at].use == RESERVED) seats[tid = at] = usual;
    }
    if (tid) {
        seats[tid].use = TAKEN;
        seats[tid].ticket = ++tickets;
        seats[tid].thread = pthread_self();
        seats[tid].host = gettid();
    }
    reserved = 0;
    return tid;
}

/* Takes a seat like take, and waits for PATIENCE seconds if all are taken. */
static int take_in_time(void) {
    struct timespec until;
    clock_gettime(CLOCK_REALTIME, &until);
    until.tv_sec += PATIENCE;
    hold();
    int tid = take();
    while (!tid && !pthread_cond_timedwait(&given_back, &front, &until)) tid = take();
    release();
    return tid;
}

/* Starts one of the front's own threads. */
static int start_own(pthread_t *thread, void *(*work)(void *argument), void *argument) {
    pthread_attr_t attributes;
    pthread_attr_init(&attributes);
    int error = pthread_attr_setstacksize(&attributes, OWN_STACK);
    if (!error) error = pthread_create(thread, &attributes, work, argument);
    pthread_attr_destroy(&attributes);
    return error;
}

static void *open_kernel(void *error) {
    struct neutrino_thread threads[SYSTEM];
    for (int tid = 1; tid <= SYSTEM; tid++)
        threads[tid - 1] = (struct neutrino_thread){(uint8_t)tid, tid == SYSTEM ? SYSTEM_PROCESS : PROGRAM, USUAL};
    kernel = neutrino_open(threads, SYSTEM);
    *(int *)error = kernel ? 0 : errno;
    return NULL;
}

/* Opens the kernel in a thread of its own. This takes 16 KiB of stack, and the caller's whole stack may be no
 * larger. */
static void open_on_own_stack(void) {
    pthread_t thread;
    int error = 0;
    if (start_own(&thread, open_kernel, &error)) open_kernel(&error);
    else pthread_join(thread, NULL);
    if (error) errno = error;
}

/* Opens the program's kernel, if it isn't open yet, and returns it. On an error it returns null and sets
 * errno. */
static neutrino *open_program(void) {
    pthread_once(&once, prepare);
    if (refused) errno = refused;
    hold();
    bool is_first = !kernel && !refused && !mark_copy();
    if (is_first) open_on_own_stack();
    if (is_first && kernel) {
        program = getpid();
        neutrino_set_hooks(kernel, hooks_of_run());
        start_service();
    }
    neutrino *opened = kernel;
    release();
    return opened;
}

/* Joins the kernel with a seat. If the daemon has no room for one more thread, it waits for room, for
 * PATIENCE seconds. */
static int join(int tid) {
    for (int left = PATIENCE * 100; neutrino_join(kernel, tid); left--) {
        if (errno != EAGAIN || !left) return -1;
        usleep(10000);
    }
    seat = tid;
    return neutrino_interruptible();
}

static void give_back(int tid) {
    hold();
    free(seats[tid].parts[0]);
    free(seats[tid].parts[1]);
    seats[tid] = (struct seat){.use = FREE};
    pthread_cond_signal(&given_back);
    release();
}

/* A thread's signal mask and cancellation state. From be_quiet to end_quiet its signals and its cancellation
 * wait. */
struct quiet {
    sigset_t signals;
    int cancel_state;
};

static void be_quiet(struct quiet *quiet) {
    sigset_t all;
    sigfillset(&all);
    pthread_sigmask(SIG_SETMASK, &all, &quiet->signals);
    pthread_setcancelstate(PTHREAD_CANCEL_DISABLE, &quiet->cancel_state);
    keep_turn(1);
    look_away();
}

static void end_quiet(const struct quiet *quiet) {
    int ignored;
    look_again();
    keep_turn(-1);
    pthread_setcancelstate(quiet->cancel_state, &ignored);
    pthread_sigmask(SIG_SETMASK, &quiet->signals, NULL);
}

/* Takes a seat for the calling thread, and joins the kernel with it. */
static int take_seat(void) {
    struct quiet quiet;
    be_quiet(&quiet);
    int tid = 0, error = open_program() ? 0 : errno;
    if (!error && !(tid = take_in_time())) error = EAGAIN;
    if (!error && join(tid)) error = errno;
    if (!error && pthread_setspecific(ending, &seats[tid])) error = ENOMEM;
    if (!error) {
        struct sched_param param = {.sched_priority = seats[tid].priority};
        record_seat(tid, pthread_self());
        if (layer_SchedSet(0, 0, SCHED_RR, &param)) error = errno;
    }
    if (error && tid) {
        neutrino_leave();
        seat = 0;
        give_back(tid);
    }
    end_quiet(&quiet);
    return error ? fail(error) : 0;
}

/* Lets the calling thread make calls, which use up its timeout. EDEADLK: it is in a handler that interrupted the front,
 * or in a handler that interrupted a call and has forked since. */
static int enter(void) {
    next_wait.states = 0;
    if (holding || (!seat && neutrino_inside())) return fail(EDEADLK);
    return seat ? 0 : take_seat();
}

static pthread_mutex_t systems = PTHREAD_MUTEX_INITIALIZER; /* protects the thread SYSTEM */

/* Makes work's calls as the thread SYSTEM, which belongs to a process of its own. This can't fail: under the
 * lock no other thread acts as SYSTEM, the calling thread is in no call, and no memory is allocated. The
 * calling thread keeps its seat, timeout and cancellation. */
static void as_system(void (*work)(void *argument), void *argument) {
    struct quiet quiet;
    be_quiet(&quiet);
    pthread_mutex_lock(&systems);
    if (neutrino_act_as(kernel, SYSTEM, work, argument))
        perror("balsaeuchre: the front's own thread can't make a call");
    pthread_mutex_unlock(&systems);
    end_quiet(&quiet);
}

/* Returns the tid of a thread that has a seat, or 0. The caller has the lock. */
static int tid_under_lock(pthread_t thread) {
    for (int tid = 1; tid <= SEATS; tid++) {
        if (seats[tid].use != FREE && seats[tid].thread && pthread_equal(seats[tid].thread, thread)) return tid;
    }
    return 0;
}

static int tid_of(pthread_t thread) {
    hold();
    int tid = tid_under_lock(thread);
    release();
    return tid;
}

/* Returns a copy of a seat. It is free if there is no such seat. */
static struct seat seat_of(int tid) {
    struct seat none = {.use = FREE};
    if (tid < 1 || tid > SEATS) return none;
    hold();
    struct seat s = seats[tid];
    release();
    return s;
}
