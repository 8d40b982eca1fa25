/* Threads: their starts, ends, priorities and cancellation. Tested, not proved. */
struct start {
    void *(*function)(void *argument);
    void *argument;
    pthread_t *id; /* the creator's place for the thread's id, or null */
    bool has_met;  /* the thread or its creator has already called meet */
    int reserved;
    unsigned ticket;
    struct task *task; /* of an explored run, or null */
};

static void tell_death(int tid);

/* The destructor of a thread. It gives back the thread's seat, and sends a pulse to each channel with
 * _NTO_CHF_THREAD_DEATH. */
static void end_thread(void *argument) {
    (void)argument;
    int tid = seat;
    begin_end();
    hold();
    if (!tid && has_reserved()) tid = reserved;
    release();
    if (seat) neutrino_leave();
    seat = reserved = 0;
    if (tid) {
        tell_death(tid);
        give_back(tid);
    }
    end_task();
}

/* A thread and its creator both call this. The first caller writes the thread's id. So the thread finds the
 * id before its function begins, and the creator finds it when pthread_create returns. The second caller
 * frees the start. */
static void meet(struct start *start, pthread_t thread) {
    hold();
    bool is_second = start->has_met;
    start->has_met = true;
    if (!is_second && start->id) *start->id = thread;
    struct seat *s = &seats[start->reserved];
    if (s->use == RESERVED && s->ticket == start->ticket) s->thread = thread;
    release();
    if (is_second) free(start);
}

static void *run_thread(void *own) {
    struct start *start = own;
    void *(*function)(void *argument) = start->function, *argument = start->argument;
    begin_task(start->task);
    reserved = start->reserved;
    ticket = start->ticket;
    meet(start, pthread_self());
    pthread_setspecific(ending, seats);
    return function(argument);
}

/* Returns the place of the priority in attributes. It isn't the host's place, since the host accepts only 1
 * to 99. These bytes are cleared when attributes are initialized, and the host doesn't use them. */
static char *priority_of(const pthread_attr_t *attributes) { return (char *)(attributes + 1) - sizeof(int); }

int neutrino_pthread_attr_getschedparam(const pthread_attr_t *attributes, struct sched_param *param) {
    memcpy(&param->sched_priority, priority_of(attributes), sizeof(int));
    return 0;
}

int neutrino_pthread_attr_setschedparam(pthread_attr_t *attributes, const struct sched_param *param) {
    if (!is_priority(param->sched_priority)) return EINVAL;
    memcpy(priority_of(attributes), &param->sched_priority, sizeof(int));
    return 0;
}

/* Returns the priority and the policy of a new thread: from its attributes, or from its creator. The caller
 * has the lock. */
static struct seat scheduling(const pthread_attr_t *attributes) {
    int own = seat ? seat : has_reserved() ? reserved : 0, inherits = PTHREAD_INHERIT_SCHED;
    struct sched_param param = {.sched_priority = 0};
    struct seat new = usual;
    if (own) new = (struct seat){.priority = seats[own].priority, .policy = seats[own].policy};
    if (attributes) {
        pthread_attr_getinheritsched(attributes, &inherits);
        neutrino_pthread_attr_getschedparam(attributes, &param);
    }
    if (inherits == PTHREAD_EXPLICIT_SCHED && is_priority(param.sched_priority)) {
        new.priority = param.sched_priority;
        pthread_attr_getschedpolicy(attributes, &new.policy);
    }
    return new;
}

/* Reserves a seat for a new thread, and before that a seat for its creator if the creator has none. */
static void reserve_both(struct start *start, const pthread_attr_t *attributes) {
    hold();
    struct seat new = scheduling(attributes);
    if (!seat && !reserved) {
        reserved = reserve(&usual);
        ticket = seats[reserved].ticket;
        seats[reserved].thread = pthread_self();
        pthread_setspecific(ending, seats);
    }
    start->reserved = reserve(&new);
    start->ticket = seats[start->reserved].ticket;
    release();
}

/* Gives up a start for which no thread was created: frees it and its reserved seat. */
static void give_up(struct start *start) {
    hold();
    struct seat *s = &seats[start->reserved];
    if (s->use == RESERVED && s->ticket == start->ticket) s->use = FREE;
    release();
    free(start);
}

/* The thread has the host's usual scheduling, whatever its attributes say. */
int neutrino_pthread_create(pthread_t *thread, const pthread_attr_t *attributes, void *(*function)(void *),
                            void *argument) {
    struct start *start = malloc(sizeof *start);
    pthread_attr_t hosts;
    pthread_t created;
    pthread_once(&once, prepare);
    if (!start || refused) {
        free(start);
        return EAGAIN;
    }
    *start = (struct start){.function = function, .argument = argument, .id = thread, .task = begin_creation()};
    reserve_both(start, attributes);
    if (attributes) {
        hosts = *attributes; /* only for this call */
        pthread_attr_setinheritsched(&hosts, PTHREAD_INHERIT_SCHED);
    }
    int error = pthread_create(&created, attributes ? &hosts : NULL, run_thread, start);
    end_creation(start->task, error, created, start->reserved);
    if (error) give_up(start);
    else meet(start, created);
    return error;
}

/* Returns the tid that a program means in SchedSet and SchedGet: 0 for the caller, a tid, or the result of
 * pthread_self as an int. Returns 0 if there is no such thread. */
static int named_tid(int tid) {
    if (tid == 0) return seat;
    if (tid >= 1 && tid <= SEATS) return tid;
    int found = 0;
    hold();
    for (int at = 1; at <= SEATS; at++) {
        if (seats[at].use != FREE && (int)seats[at].thread == tid) found = at;
    }
    release();
    return found;
}

static int set_priority(int tid, int policy, int priority) {
    struct sched_param param = {.sched_priority = priority};
    enum use use = seat_of(tid).use;
    if (use == FREE) return fail(ESRCH);
    if (policy == SCHED_ADJTOHEAD || policy == SCHED_ADJTOTAIL) return 0;
    if (!is_priority(priority)) return fail(EINVAL);
    hold();
    seats[tid].priority = priority;
    if (policy != SCHED_NOCHANGE) seats[tid].policy = policy;
    release();
    return use == TAKEN ? layer_SchedSet(0, tid, policy, &param) : 0;
}

int SchedSet(pid_t pid, int tid, int policy, const struct sched_param *param) {
    if (enter()) return -1;
    if (!param) return fail(EFAULT);
    if (pid && pid != program) return fail(ESRCH);
    step_if_explored(DO_TABLES);
    return set_priority(named_tid(tid), policy, param->sched_priority);
}

int SchedGet(pid_t pid, int tid, struct sched_param *param) {
    if (enter()) return -1;
    step_if_explored(DO_TABLES);
    tid = pid && pid != program ? 0 : named_tid(tid);
    struct seat s = seat_of(tid);
    if (s.use == FREE) return fail(ESRCH);
    int priority = s.use == TAKEN ? neutrino_priority(tid) : s.priority;
    if (priority == -1) return -1;
    if (param) *param = (struct sched_param){s.priority, priority};
    return s.policy;
}

int SchedInfo(pid_t pid, int policy, struct _sched_info *info) {
    if (pid && pid != getpid()) return fail(ESRCH);
    if (!info) return fail(EFAULT);
    if (sched_get_priority_min(policy) == -1) return -1;
    *info = (struct _sched_info){0, LOWEST, HIGHEST, HIGHEST + 1, {0}};
    return 0;
}

/* The host has a clock for each thread and each of its processes. */
int ClockId(pid_t pid, int tid) {
    clockid_t id;
    if (enter()) return -1;
    struct seat s = seat_of(named_tid(tid));
    if ((pid && pid != program) || s.use == FREE || !s.thread) return fail(ESRCH);
    int error = tid ? pthread_getcpuclockid(s.thread, &id) : clock_getcpuclockid(0, &id);
    return error ? fail(error) : id;
}

int SchedYield(void) { return neutrino_sched_yield(); }

int getprio(pid_t pid) {
    struct sched_param param;
    return SchedGet(pid, 0, &param) == -1 ? -1 : param.sched_curpriority;
}

int setprio(pid_t pid, int priority) {
    int old = getprio(pid);
    return old == -1 || set_priority(seat, SCHED_NOCHANGE, priority) ? -1 : old;
}

int neutrino_sched_setparam(pid_t pid, const struct sched_param *param) {
    return SchedSet(pid, 0, SCHED_NOCHANGE, param);
}

int neutrino_sched_getparam(pid_t pid, struct sched_param *param) { return SchedGet(pid, 0, param) == -1 ? -1 : 0; }

int neutrino_sched_setscheduler(pid_t pid, int policy, const struct sched_param *param) {
    int old = SchedGet(pid, 0, NULL);
    return old == -1 || SchedSet(pid, 0, policy, param) ? -1 : old;
}

int neutrino_sched_getscheduler(pid_t pid) { return SchedGet(pid, 0, NULL); }

int neutrino_sched_get_priority_min(int policy) { return sched_get_priority_min(policy) == -1 ? -1 : LOWEST; }

int neutrino_sched_get_priority_max(int policy) { return sched_get_priority_max(policy) == -1 ? -1 : HIGHEST; }

int neutrino_gettid(void) { return seat || !enter() ? seat : -1; }

/* Returns the tid of a thread of the program, or 0. The thread 0 is the caller. The caller takes a seat if it
 * has none. */
static int tid_of_thread(pthread_t thread) {
    if (!thread || pthread_equal(thread, pthread_self())) return enter() ? 0 : seat;
    return tid_of(thread);
}

int neutrino_pthread_setschedparam(pthread_t thread, int policy, const struct sched_param *param) {
    int tid = tid_of_thread(thread);
    return tid ? SchedSet_r(0, tid, policy, param) : ESRCH;
}

int neutrino_pthread_setschedprio(pthread_t thread, int priority) {
    struct sched_param param = {.sched_priority = priority};
    return neutrino_pthread_setschedparam(thread, SCHED_NOCHANGE, &param);
}

int neutrino_pthread_getschedparam(pthread_t thread, int *policy, struct sched_param *param) {
    int tid = tid_of_thread(thread), got = tid ? SchedGet_r(0, tid, param) : -1;
    if (got >= 0) *policy = got;
    return got < 0 ? ESRCH : 0;
}

/* Cancels a thread, and ends the call in which it is blocked. The thread ends when that call returns. */
int neutrino_pthread_cancel(pthread_t thread) {
    step_if_explored(DO_CANCEL);
    int before = errno, error = pthread_cancel(thread);
    if (!error) cancel_task(thread);
    /* Under the lock no seat gets another thread. If a thread takes its seat later, it finds the cancellation
     * first. */
    hold();
    int tid = error ? 0 : tid_under_lock(thread);
    if (tid && seats[tid].use == TAKEN) neutrino_cancel(kernel, tid);
    release();
    errno = before;
    return error;
}

/* Sets a thread's name, cut to the 15 bytes that the host keeps. The thread 0 is the caller. */
int neutrino_pthread_setname_np(pthread_t thread, const char *name) {
    char cut[THREAD_NAME];
    if (!thread) thread = pthread_self();
    snprintf(cut, sizeof cut, "%s", name);
    show_name(thread, cut);
    int error = pthread_setname_np(thread, cut), tid = error ? 0 : tid_of(thread);
    if (seat_of(tid).use == TAKEN) record_seat(tid, thread);
    return error;
}

/* Sets the calling thread's name, and writes its old name. Returns 0 or an errno. */
static int change_name(struct _thread_name *name) {
    char new[THREAD_NAME], old[THREAD_NAME];
    int length = name->new_name_len;
    if (length > _NTO_THREAD_NAME_MAX) return E2BIG;
    int error = pthread_getname_np(pthread_self(), old, sizeof old);
    snprintf(new, sizeof new, "%.*s", length > 0 ? length : 0, name->name_buf);
    if (!error && length >= 0) error = neutrino_pthread_setname_np(pthread_self(), new);
    if (!error && name->old_name_len > 0) snprintf(name->name_buf, (size_t)name->old_name_len, "%s", old);
    return error;
}

static _Thread_local unsigned runmask = ~0u; /* as it was last set */

/* Sets the calling thread's mask, and writes its old mask. */
static int change_runmask(unsigned *mask) {
    unsigned old = runmask;
    runmask = *mask;
    *mask = old;
    return 0;
}

int ThreadCtl(int cmd, void *data) {
    if (enter()) return -1;
    if (cmd == _NTO_TCTL_RUNMASK) runmask = (unsigned)(uintptr_t)data;
    if (cmd >= _NTO_TCTL_IO && cmd <= _NTO_TCTL_RUNMASK) return 0;
    if (cmd >= _NTO_TCTL_THREADS_HOLD && cmd <= _NTO_TCTL_ONE_THREAD_CONT) return fail(ENOTSUP);
    if (cmd == _NTO_TCTL_RUNMASK_GET_AND_SET) return data ? change_runmask(data) : fail(EFAULT);
    int error = cmd != _NTO_TCTL_NAME ? EINVAL : !data ? EFAULT : change_name(data);
    return error ? fail(error) : 0;
}
