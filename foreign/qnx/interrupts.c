/* Interrupts. Tested, not proved.
 *
 * A line is an eventfd, which the front's own thread watches while the line has events and no masks. When the
 * line is raised, the thread reads the eventfd and masks the line once for each event. An eventfd that is
 * written while the line is masked stays readable, so it delivers when the last mask ends. */
#include <sys/eventfd.h>

enum { ATTACHMENTS = 64 };
enum {
    INTERRUPT_FLAGS = _NTO_INTR_FLAGS_END | _NTO_INTR_FLAGS_NO_UNMASK | _NTO_INTR_FLAGS_PROCESS |
                      _NTO_INTR_FLAGS_TRK_MSK
};

struct interrupt_line {
    int fd; /* the eventfd plus 1; 0: it isn't open */
    int masks;
    int events; /* the number of attached events */
    bool is_watched;
};

/* The InterruptWait of a thread: its interrupt may have come, and is posted once. */
struct waiting {
    sem_t posted;
    bool is_ready;
};

struct attachment {
    bool is_used;
    int line, masks;
    struct sigevent event;
    int tid; /* the thread that attached, and the ticket of its seat */
    unsigned ticket;
    struct waiting *waiting; /* of that thread */
};

/* The events of a line that is raised. */
struct interrupt {
    int count;
    struct attachment events[ATTACHMENTS];
};

static struct interrupt_line interrupt_lines[LINES];
static struct attachment attachments[ATTACHMENTS]; /* by id; the first id is 1 */
static _Thread_local struct waiting own_waiting;

static bool is_line(int intr) { return intr >= 0 && intr < LINES; }

/* Returns the eventfd of a line, or -1 and sets errno. The caller has the lock. */
static int open_line(int intr) {
    struct interrupt_line *line = &interrupt_lines[intr];
    if (!line->fd) line->fd = eventfd(0, EFD_CLOEXEC | EFD_NONBLOCK) + 1;
    return line->fd - 1;
}

/* Watches a line while it has events and no masks. Returns 0, or -1. The caller has the lock. */
static int watch_line(int intr) {
    struct interrupt_line *line = &interrupt_lines[intr];
    struct epoll_event event = {.events = EPOLLIN, .data.u32 = (uint32_t)(WAIT_LINE + intr)};
    bool watches = line->events && !line->masks;
    if (watches == line->is_watched) return 0;
    if (epoll_ctl(watched, watches ? EPOLL_CTL_ADD : EPOLL_CTL_DEL, line->fd - 1, &event)) return fail(EAGAIN);
    line->is_watched = watches;
    return 0;
}

int neutrino_interrupt_line(int intr) {
    if (!is_line(intr)) return fail(EINVAL);
    hold();
    int fd = open_line(intr);
    release();
    return fd;
}

/* Returns an errno for an event that no line delivers, or 0. */
static int wrong_interrupt(const struct sigevent *event) {
    if (!event) return EFAULT;
    int type = SIGEV_GET_TYPE(event);
    return type == SIGEV_INTR ? 0 : type == SIGEV_UNBLOCK ? EINVAL : wrong_event(event);
}

/* Enters an attachment, and returns its id, or -1. The caller has the lock. */
static int enter_attachment(int intr, const struct sigevent *event) {
    int at = 0;
    while (at < ATTACHMENTS && attachments[at].is_used) at++;
    if (at == ATTACHMENTS || watched == -1 || open_line(intr) == -1) return fail(EAGAIN);
    interrupt_lines[intr].events++;
    if (watch_line(intr)) {
        interrupt_lines[intr].events--;
        return -1;
    }
    attachments[at] = (struct attachment){true, intr, 0, *event, seat, seats[seat].ticket, &own_waiting};
    return at + 1;
}

int InterruptAttachEvent(int intr, const struct sigevent *event, unsigned flags) {
    int error = wrong_interrupt(event);
    if (!error && (!is_line(intr) || flags & ~(unsigned)INTERRUPT_FLAGS)) error = EINVAL;
    if (error || enter()) return error ? fail(error) : -1;
    hold();
    int id = enter_attachment(intr, event);
    release();
    return id;
}

/* Returns an attachment, or null. The caller has the lock. */
static struct attachment *attachment_of(int id) {
    bool is_id = id >= 1 && id <= ATTACHMENTS && attachments[id - 1].is_used;
    return is_id ? &attachments[id - 1] : NULL;
}

int InterruptDetach(int id) {
    hold();
    struct attachment *a = attachment_of(id);
    if (a) {
        struct interrupt_line *line = &interrupt_lines[a->line];
        line->events--;
        line->masks -= a->masks < line->masks ? a->masks : line->masks;
        watch_line(a->line);
        a->is_used = false;
    }
    release();
    return a ? 0 : fail(EINVAL);
}

/* Adds a mask to a line, or takes one away. Returns the number of masks, or -1. */
static int change_masks(int intr, int id, int change) {
    if (!is_line(intr)) return fail(EINVAL);
    hold();
    struct attachment *a = id == -1 ? NULL : attachment_of(id);
    bool is_known = id == -1 || (a && a->line == intr);
    int masks = interrupt_lines[intr].masks + change;
    if (is_known && masks >= 0) {
        interrupt_lines[intr].masks = masks;
        if (a && a->masks + change >= 0) a->masks += change;
        watch_line(intr);
    }
    release();
    return !is_known ? fail(EINVAL) : masks > 0 ? masks : 0;
}

int InterruptMask(int intr, int id) { return change_masks(intr, id, 1); }

int InterruptUnmask(int intr, int id) { return change_masks(intr, id, -1); }

/* Delivers an event to the thread that attached it, if that thread still has its seat. */
static void deliver_to_thread(const struct attachment *a) {
    hold();
    bool is_there = seats[a->tid].use == TAKEN && seats[a->tid].ticket == a->ticket;
    if (is_there && SIGEV_GET_TYPE(&a->event) == SIGEV_SIGNAL_THREAD) queue_signal(seats[a->tid].host, &a->event);
    else if (is_there && !a->waiting->is_ready) {
        a->waiting->is_ready = true;
        neutrino_sem_post(&a->waiting->posted);
    }
    release();
}

static void deliver_interrupt(const struct attachment *a) {
    switch (SIGEV_GET_TYPE(&a->event)) {
    case SIGEV_PULSE:
        send_event_pulse(&a->event);
        break;
    case SIGEV_SIGNAL:
        kill(program, a->event.sigev_signo);
        break;
    case SIGEV_SIGNAL_CODE:
        queue_signal(0, &a->event);
        break;
    case SIGEV_SIGNAL_THREAD:
    case SIGEV_INTR:
        deliver_to_thread(a);
        break;
    default:
        break;
    }
}

/* Takes the interrupt of a line that is raised, and masks the line. */
static void take_interrupt(int intr, struct interrupt *taken) {
    uint64_t times = 0;
    taken->count = 0;
    hold();
    bool is_raised = interrupt_lines[intr].is_watched &&
                     read(interrupt_lines[intr].fd - 1, &times, sizeof times) == sizeof times;
    for (int at = 0; is_raised && at < ATTACHMENTS; at++) {
        if (!attachments[at].is_used || attachments[at].line != intr) continue;
        attachments[at].masks++;
        interrupt_lines[intr].masks++;
        taken->events[taken->count++] = attachments[at];
    }
    watch_line(intr);
    release();
}

/* Delivers the interrupt of a line. The front's own thread calls this. */
static void raise_line(int intr) {
    static struct interrupt taken; /* the stack is short */
    take_interrupt(intr, &taken);
    for (int at = 0; at < taken.count; at++) deliver_interrupt(&taken.events[at]);
}

int InterruptWait(int flags, const uint64_t *reserved) {
    if (flags || reserved) return fail(flags ? EINVAL : ENOTSUP);
    struct limit limit = take_limit(_NTO_TIMEOUT_INTR);
    if (wait_semaphore(&own_waiting.posted, &limit)) return -1;
    hold();
    own_waiting.is_ready = false;
    release();
    return 0;
}

/* Forgets the lines in a forked child. */
static void forget_lines(void) {
    for (int at = 0; at < LINES; at++) {
        if (interrupt_lines[at].fd) close(interrupt_lines[at].fd - 1);
    }
    memset(interrupt_lines, 0, sizeof interrupt_lines);
    memset(attachments, 0, sizeof attachments);
    memset(&own_waiting, 0, sizeof own_waiting);
}
