/* Programs and their threads: how they join, and how they end. Tested, not proved.
 *
 * A place is a process of the kernel, 1 to 31. It is free, or a program has it, or a program
 * that has ended still has it.
 *
 * Identity. A program's scoid is its place and the place's generation, which each join increases. So no two
 * programs have the same scoid until a place has been taken 2^24 times. An rcvid has its sender's place,
 * which another program may have by now. So a place keeps the serial of the first message that can come from
 * its program. An earlier rcvid leads to no program. The note of a pulse has the scoid of its program, also
 * if the kernel makes the pulse. So a queued disconnect pulse names the program that has ended, even if
 * another program has its place.
 *
 * Ends. The daemon learns that a program has ended by its pidfd or by the end of its socket, whichever comes
 * first. It needs both: the socket may stay open in a forked child, and exec closes it. Then the daemon
 * destroys the program's channels and unblocks its calls. A call whose message is held on a channel with the
 * flag UNBLOCK stays open, and its server gets the unblock pulse. All other calls end at once. The daemon
 * detaches all connections except the connections of calls that stay open. The place is free as soon as
 * nothing of the program is left. If a server never replies, the program keeps its place until another
 * program joins and all places are taken. Then the daemon empties the place of the program that ended first.
 *
 * Room. The end of a program must not depend on a server that doesn't receive. A detach may make a
 * disconnect pulse, and the kernel refuses the detach if 1,024 pulses wait on the channel. So on each
 * channel the waiting pulses and the disconnect pulses that connected processes owe are at most 1,024
 * together. The daemon refuses a program's pulse if it would leave too little room for the disconnect
 * pulses of all processes. It refuses a process's first connection to a channel if its disconnect pulse
 * would have no room. That can happen although there are few processes, because disconnect pulses of many
 * earlier programs of one place may wait there.
 */
#include <poll.h>
#include <sys/syscall.h>

/* Keeps the first WIRE_GROUPS groups of a socket's user. */
static void read_groups(int fd, struct process *process) {
    gid_t groups[256];
    socklen_t length = sizeof groups;
    if (getsockopt(fd, SOL_SOCKET, SO_PEERGROUPS, groups, &length)) length = 0;
    for (; process->ngroups < WIRE_GROUPS && process->ngroups < length / sizeof(gid_t); process->ngroups++)
        process->groups[process->ngroups] = groups[process->ngroups];
}

/* Whether the process of a pidfd has ended. */
static bool has_ended(int pidfd) {
    struct pollfd ended = {.fd = pidfd, .events = POLLIN};
    return pidfd == -1 || poll(&ended, 1, 0) != 0;
}

/* Whether the process with a pid has this effective user. */
static bool is_of_user(pid_t pid, uid_t uid) {
    char path[40], line[200];
    unsigned real = 0, effective = 0;
    bool found = false;
    snprintf(path, sizeof path, "/proc/%d/status", (int)pid);
    FILE *file = fopen(path, "re");
    while (file && !found && fgets(line, sizeof line, file)) found = sscanf(line, "Uid: %u %u", &real, &effective) == 2;
    if (file) fclose(file);
    return found && effective == uid;
}

#ifndef PEER_PIDFD
#define PEER_PIDFD 77 /* SO_PEERPIDFD, since Linux 6.5 */
#endif

/* Opens a pidfd of the process that connected a socket. Returns it, or -1 if the process has ended. An older
 * host finds the process only by its pid. Then the process also has to run as the socket's user. */
static int open_pidfd(int fd, const struct ucred *peer) {
    int pidfd = -1;
    socklen_t length = sizeof pidfd;
    bool is_exact = !getsockopt(fd, SOL_SOCKET, PEER_PIDFD, &pidfd, &length);
    if (!is_exact && errno == ENOPROTOOPT) pidfd = (int)syscall(SYS_pidfd_open, peer->pid, 0);
    if (pidfd == -1) return -1;
    if ((is_exact || is_of_user(peer->pid, peer->uid)) && !has_ended(pidfd)) return pidfd;
    close(pidfd);
    return -1;
}

static void end_connections(int process, bool by_force);

/* Returns a free place. If there is none, empties the place of the program that ended first. 0: no program
 * has ended, or the place can't be emptied. */
static int free_place(void) {
    int oldest = 0;
    for (int process = 1; process <= limits.processes; process++) {
        uint64_t ended_as = processes[process].ended_as;
        if (!processes[process].peer.pid) return process;
        if (ended_as && (!oldest || ended_as < processes[oldest].ended_as)) oldest = process;
    }
    if (oldest) end_connections(oldest, true);
    return processes[oldest].peer.pid ? 0 : oldest;
}

/* The scoid of a place's next program. */
static int next_scoid(int process) {
    static uint32_t generations[PROCESSES];
    uint32_t *generation = &generations[process], last = (1u << GENERATION_BITS) - 1;
    *generation = *generation == last ? 1 : *generation + 1;
    return (int)(WIRE_SCOID | *generation << SLOT_BITS | (uint32_t)process);
}

/* Gives a place to the program of a socket. Returns an errno or 0. */
static int take_place(struct client *c) {
    int pidfd = open_pidfd(c->fd, &c->peer), process = pidfd == -1 ? 0 : free_place();
    if (pidfd == -1) return ESRCH;
    if (!process || !watch(pidfd, EPOLLIN, &processes[process])) {
        close(pidfd);
        return EAGAIN;
    }
    struct process *new = &processes[process];
    *new = (struct process){.peer = c->peer, .pidfd = pidfd, .came_as = c->came_as, .first = k->next[MESSAGES]};
    new->scoid = next_scoid(process);
    read_groups(c->fd, new);
    c->is_process = true;
    c->process = (uint8_t)process;
    return 0;
}

static void end_program(int process);

/* Lets a table skip all numbers up to this number, if it is of the lower half. A program that names a greater
 * number would use up the numbers of all programs. */
static void skip_up_to(enum table table, int number) {
    const struct names *names = &k->tables[table];
    int next = number_at(names, k->next[table]);
    if (number >= next && (uint32_t)number >> names->bits < names->turns / 2)
        k->next[table] += (uint64_t)(number - next) + 1;
}

/* Skips the numbers that a program had of an earlier daemon. The program may still use
 * them. They name nothing here. */
static void skip_numbers(const struct wire_ask *a) {
    skip_up_to(CHANNELS, a->states);
    skip_up_to(CONNECTIONS, (int)a->flags & ~SIDE);
    skip_up_to(MESSAGES, number_of_rcvid(a->pid));
}

static void join_process(struct client *c, const struct wire_ask *a) {
    int other = process_of(c->peer.pid);
    if (other && has_ended(processes[other].pidfd)) {
        end_program(other);
        other = 0;
    }
    int error = a->number != WIRE_VERSION ? ENOEXEC : other ? EBUSY : take_place(c);
    if (!error) skip_numbers(a);
    c->answer.count = (uint32_t)limits.processes;
    put_result(c, error, processes[c->process].scoid);
}

/* The process to which a thread's socket belongs, or 0. A pid may belong to a later program by now. It
 * doesn't if the program that has the pid still lives and connected before the thread. */
static int process_of_thread(const struct client *c) {
    int process = process_of(c->peer.pid);
    bool is_of_it = process && c->came_as > processes[process].came_as && !has_ended(processes[process].pidfd);
    return is_of_it ? process : 0;
}

/* Gives a thread a seat of its process. */
static void join_thread(struct client *c, const struct wire_ask *a) {
    int process = process_of_thread(c), seat = 0;
    while (process && seat < PLACES && (k->places[seat].pid != process || client_of[seat])) seat++;
    int error = 0;
    if (!process) error = ESRCH;
    else if (thread_of(process, a->number)) error = EBUSY;
    else if (seat == PLACES) error = EAGAIN;
    int files[2] = {-1, -1};
    if (a->number < 1 || a->number > UINT8_MAX || a->value < 1 || a->value > UINT8_MAX) error = EINVAL;
    /* EMFILE is about the daemon's files, not the program's. */
    if (!error && !open_box(c, files)) error = errno == EMFILE ? ENFILE : errno;
    if (!error) {
        struct place *p = &k->places[seat];
        balsaeuchre_request request = balsaeuchre_request_of(BALSAEUCHRE_PRIORITY_SET, clock_of(process), 0);
        request.target = p->tid;
        request.priority = (uint8_t)a->value;
        p->joined = true;
        p->cancelled = false;
        c->process = (uint8_t)process;
        c->tid = a->number;
        c->host_tid = a->pid;
        c->place = p;
        client_of[seat] = c;
        record_seat(c);
        make_hidden(request);
    } else {
        close_box(c);
    }
    c->answer.error = error;
    c->answer.count = process ? (uint32_t)threads_of(process) : 0;
    send_answer(c, NULL, files, error ? 0 : 2);
    if (files[0] != -1) close(files[0]);
}

/* A thread whose socket has ended leaves its seat. It must have no open call. */
static void leave_seat(struct client *c) {
    c->place->joined = false;
    client_of[c->place - k->places] = NULL;
    free_client(c);
    gone--;
}

/* Frees the seats of threads whose sockets have ended, unless they have an open call. Returns a bit for each
 * process of such a thread. */
static uint32_t leave_free_seats(void) {
    uint32_t left = 0;
    for (int at = 0; gone && at < PLACES; at++) {
        struct client *c = client_of[at];
        if (!c || c->fd != -1 || k->places[at].call) continue;
        left |= 1u << c->process;
        leave_seat(c);
    }
    return left;
}

static void leave_seats(void) {
    for (uint32_t left = leave_free_seats(); left; left &= left - 1) {
        int process = __builtin_ctz(left);
        if (processes[process].ended_as) end_connections(process, false);
    }
}

/* Whether a message that was sent over a connection is held. */
static bool carries_message(int coid) {
    for (int at = 0; at < PLACES; at++) {
        const struct place *p = &k->places[at];
        if (p->call && p->kind == BALSAEUCHRE_SEND && p->rcvid && p->number == coid) return true;
    }
    return false;
}

/* Detaches the connections of a program that has ended. Connections with held messages stay, unless
 * by_force. */
static void detach_connections(int process, bool by_force) {
    processes[process].retries = false;
    for (int at = 0; at < CONNECTION_PLACES; at++) {
        struct name *name = &k->connections[at];
        if (!name->id || name->owner != process) continue;
        if (!by_force && carries_message((int)(name->turn << CONNECTION_BITS) | at)) continue;
        if (make_hidden(balsaeuchre_request_of(BALSAEUCHRE_CONNECT_DETACH, clock_of(process), name->id)))
            processes[process].retries = true;
        else name->id = 0;
    }
}

/* Detaches the connections of a program that has ended. Its place is free once it has no
 * connection and no thread. */
static void end_connections(int process, bool by_force) {
    bool retried = processes[process].retries, left = false;
    detach_connections(process, by_force);
    leave_free_seats();
    for (int at = 0; at < CONNECTION_PLACES; at++) left |= k->connections[at].id && k->connections[at].owner == process;
    for (int at = 0; at < PLACES; at++) left |= client_of[at] && client_of[at]->process == process;
    ending += processes[process].retries - retried;
    if (!left) processes[process] = (struct process){.pidfd = -1};
}

static void end_channels(int process) {
    for (int at = 0; at < CHANNEL_PLACES; at++) {
        struct name *name = &k->channels[at];
        if (!name->id || name->owner != process) continue;
        make_hidden(balsaeuchre_request_of(BALSAEUCHRE_CHANNEL_DESTROY, clock_of(process), name->id));
        name->id = 0;
        end_channel(chid_at(at));
    }
}

static void end_socket(struct client *c) {
    if (c->fd == -1) return;
    close(c->fd);
    c->fd = -1;
    close_box(c);
    if (c->place) gone++;
}

/* Unblocks the calls of a program that has ended. Calls that stay open wait for their servers' replies. */
static void unblock_calls(int process) {
    for (int at = 0; at < PLACES; at++) {
        struct client *c = client_of[at];
        if (!c || c->process != process || !k->places[at].call) continue;
        c->call.states = ~0;
        interrupt(c, TIMED_OUT);
    }
}

/* Ends a program with its threads, channels, calls and connections. */
static void end_process(int process) {
    static uint64_t ends;
    struct process *ended = &processes[process];
    ended->ended_as = ++ends;
    epoll_ctl(events, EPOLL_CTL_DEL, ended->pidfd, NULL); /* other processes may still have it */
    close(ended->pidfd);
    ended->pidfd = -1;
    for (int at = 0; at < PLACES; at++) {
        if (client_of[at] && client_of[at]->process == process) end_socket(client_of[at]);
    }
    end_channels(process);
    unblock_calls(process);
    end_connections(process, false);
}

/* A socket has ended, or its requests are malformed. If its thread is in a call, its program has most likely
 * been killed, and the program's own socket ends in a moment. So the call is ended a little later. */
static void hang_up(struct client *c) {
    int process = c->process;
    bool is_process = c->is_process;
    end_socket(c);
    c->call.states = ~0;
    c->call.until = now() + RETRY * 1000000u;
    if (!c->place) free_client(c);
    if (is_process) end_process(process);
    leave_seats();
}

/* A program's process has ended. Other processes may still have its sockets. */
static void end_program(int process) {
    for (int at = 0; at < CLIENTS; at++) {
        if (clients[at].is_process && clients[at].process == process) hang_up(&clients[at]);
    }
}

/* Whether an address is a place. The epoll reports a pidfd by the address of its place. */
static bool is_place(const void *address) {
    return (uintptr_t)address >= (uintptr_t)processes && (uintptr_t)address < (uintptr_t)(processes + PROCESSES);
}

/* A pidfd has news. Another program may have the place by now. */
static void look_at_program(struct process *of) {
    if (of->peer.pid && !of->ended_as && has_ended(of->pidfd)) end_program((int)(of - processes));
}
