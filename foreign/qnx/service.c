/* The front's own thread. It waits for timers, for interrupts, for files of select_attach, for pulses that
 * signal handlers couldn't send, and for SIGQUIT. Tested, not proved. */
enum { EVERY = 20 }; /* milliseconds between looks for circles */

/* An order that the front's thread gets through a pipe. */
struct order {
    int coid;                 /* the connection over which it sends a pulse; 0: it shows the threads */
    int priority, code, zero; /* zero takes the place of padding, so each byte is written */
    union sigval value;
};

static int orders[2] = {-1, -1};
static _Atomic int given; /* orders of an explored run that aren't obeyed yet */

static int give_order(const struct order *order) {
    if (exploring) given++;
    release_order(&given);
    look_away();
    bool is_given = write(orders[1], order, sizeof *order) == sizeof *order;
    look_again();
    return is_given ? 0 : fail(EAGAIN);
}

/* Takes the next order. Returns whether there is one. */
static bool take_order(struct order *order) {
    look_away();
    bool is_taken = read(orders[0], order, sizeof *order) == sizeof *order;
    look_again();
    acquire_order(&given);
    return is_taken;
}

/* Has the front's thread send a pulse, for a signal handler. With SIGEV_PULSE_PRIO_INHERIT the pulse has the
 * priority of the front's thread. */
static int defer_pulse(int coid, int priority, int code, union sigval value) {
    return give_order(&(struct order){coid, priority, code, 0, value});
}

static void on_quit(int signo) {
    int before = errno;
    (void)signo;
    give_order(&(struct order){.coid = 0});
    errno = before;
}

static void obey(void) {
    struct order order;
    if (!take_order(&order)) return;
    if (!order.coid) neutrino_show(STDERR_FILENO);
    else send_pulse(order.coid, order.priority, order.code, order.value);
}

/* Does what one event of the epoll asks for. */
static void act(uint32_t number, uint32_t events) {
    if (number < WAIT_ORDER) expire(&timers[number]);
    else if (number == WAIT_ORDER) obey();
    else if (number < WAIT_FILE) raise_line((int)number - WAIT_LINE);
    else tell_file((int)number - WAIT_FILE, events);
}

/* The next event of an explored run: an interrupt's line is raised, or a file of select_attach is ready. */
static struct epoll_event next_event;
static bool has_next_event;

static bool has_event(void) {
    if (!has_next_event) has_next_event = epoll_wait(watched, &next_event, 1, 0) == 1;
    return has_next_event;
}

static bool has_work(const struct task *t) {
    (void)t;
    return given || has_expired() || has_event();
}

/* The thread in an explored run. It begins when there is work, without a choice. Its pulses are calls like
 * others. */
_Noreturn static void serve_explored(void) {
    begin_task(&tasks[SERVICE]);
    look_away();
    if (!neutrino_join(kernel, TICKER)) seat = TICKER;
    look_again();
    for (;;) {
        for (int at = 0; at < TIMERS; at++) {
            if (virtual_timers[at].expired) expire(&timers[at]);
        }
        for (; given; given--) obey();
        while (has_event()) {
            has_next_event = false;
            act(next_event.data.u32, next_event.events);
        }
        await_work(has_work);
    }
}

static void *serve(void *tells_circles) {
    struct epoll_event event;
    if (exploring) serve_explored();
    if (neutrino_remote() || !neutrino_join(kernel, TICKER)) seat = TICKER;
    for (;;) {
        int count = epoll_wait(watched, &event, 1, tells_circles ? EVERY : -1);
        if (count == -1 && errno != EINTR) return NULL; /* the program has closed all files */
        if (tells_circles) tell_circles();
        if (count != 1) continue;
        act(event.data.u32, event.events);
    }
}

/* Opens the pipe and the epoll. Returns whether both are open. */
static bool open_service(void) {
    struct epoll_event event = {.events = EPOLLIN, .data.u32 = WAIT_ORDER};
    int epoll = epoll_create1(EPOLL_CLOEXEC);
    if (epoll == -1) return false;
    if (pipe2(orders, O_CLOEXEC | O_NONBLOCK) || epoll_ctl(epoll, EPOLL_CTL_ADD, orders[0], &event)) {
        close(epoll);
        return false;
    }
    watched = epoll;
    return true;
}

/* Starts the thread. The caller has the lock, and has blocked its signals. Without the thread no timer sends
 * pulses, and SIGQUIT has its usual effect. */
static void start_service(void) {
    pthread_t thread;
    struct sigaction quit;
    const char *circles = getenv("BALSAEUCHRE_CIRCLES");
    if (!open_service()) return;
    bool tells = circles && *circles && strcmp(circles, "0");
    if (exploring) create_service(has_work);
    if (start_own(&thread, serve, tells ? orders : NULL)) return;
    pthread_detach(thread);
    if (sigaction(SIGQUIT, NULL, &quit) || quit.sa_handler != SIG_DFL) return;
    memset(&quit, 0, sizeof quit);
    quit.sa_handler = on_quit;
    quit.sa_flags = SA_RESTART;
    sigaction(SIGQUIT, &quit, NULL);
}

/* Forgets the parent's kernel in a forked child, which has only one thread. If the child is in a handler that
 * has interrupted a call, its calls are still refused. */
static void forget_all(void) {
    int ignored;
    for (int at = 0; at < TIMERS; at++) {
        if (timers[at].is_used && timers[at].fd != -1) close(timers[at].fd);
    }
    for (int at = 0; at < 2; at++) {
        if (orders[at] != -1) close(orders[at]);
    }
    if (watched != -1) close(watched);
    watched = orders[0] = orders[1] = -1;
    kernel = NULL;
    atomic_store(&opened, 0);
    seat = reserved = 0;
    sleepers = NULL;
    memset(timers, 0, sizeof timers);
    memset(seats, 0, sizeof seats);
    memset(told, 0, sizeof told);
    memset(connections, 0, sizeof connections);
    memset(notes, 0, sizeof notes);
    memset(names, 0, sizeof names);
    forget_record();
    forget_lines();
    forget_files();
    pthread_mutex_init(&systems, NULL);
    pthread_mutex_init(&front, NULL);
    pthread_cond_init(&given_back, NULL);
    if (unlocked_forks) {
        unlocked_forks--;
        return;
    }
    holding--;
    pthread_setcancelstate(cancel_state, &ignored);
}
