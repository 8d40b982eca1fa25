/* Shows which thread is blocked on which, like pidin, and reports circles of senders. Tested, not proved. */
#include "printable.h"

/* Writes a thread's name, as pthread_setname_np set it, or the program's name. It is ? if no thread has the
 * seat. */
static void name_thread(int tid, char *name) {
    strcpy(name, "?");
    hold();
    if (tid >= 1 && tid <= SEATS && seats[tid].use == TAKEN) pthread_getname_np(seats[tid].thread, name, THREAD_NAME);
    release();
    make_printable(name);
}

static void show_thread(int fd, int tid, const struct neutrino_blocked *blocked) {
    static const char *const states[] = {"", "READY", "SEND", "RECEIVE", "REPLY"};
    char name[THREAD_NAME], server[THREAD_NAME], whom[2 * THREAD_NAME] = "";
    name_thread(tid, name);
    name_thread(blocked->server, server);
    if (blocked->server) snprintf(whom, sizeof whom, ", thread %d (%s)", blocked->server, server);
    dprintf(fd, "%8d %3d %-15s %4d ", (int)program, tid, name, neutrino_priority(tid));
    if (blocked->state == STATE_READY) dprintf(fd, "READY\n");
    else dprintf(fd, "%-8s chid %d%s\n", states[blocked->state], blocked->chid, whom);
}

void neutrino_show(int fd) {
    if (!holding && kernel && neutrino_remote()) {
        neutrino_remote_show(fd);
        return;
    }
    dprintf(fd, "%8s %3s %-15s %4s %-8s Blocked\n", "pid", "tid", "name", "prio", "STATE");
    if (!kernel || enter()) return;
    struct neutrino_blocked *all = calloc(256, sizeof *all); /* the stack may be too short */
    bool has_looked = all && !neutrino_look(kernel, all);
    for (int tid = 1; has_looked && tid <= SEATS; tid++) {
        if (all[tid].state) show_thread(fd, tid, &all[tid]);
    }
    free(all);
}

/* Returns the circle of threads in which a thread waits for itself, a bit for each thread. 0: there is
 * none. */
static uint64_t circle_of(const struct neutrino_blocked *all, int tid) {
    uint64_t circle = 0;
    int at = tid;
    do {
        bool sends = all[at].state == STATE_SEND || all[at].state == STATE_REPLY;
        at = sends ? all[at].server : 0;
        if (at < 1 || at > SEATS || circle >> at & 1) return 0;
        circle |= 1ull << at;
    } while (at != tid);
    return circle;
}

static void tell_circle(const struct neutrino_blocked *all, int tid) {
    char text[SEATS * 60 + 60], name[THREAD_NAME], *to = text + sprintf(text, "balsaeuchre: a circle of senders:");
    int at = tid;
    do {
        name_thread(at, name);
        to += sprintf(to, " thread %d (%s) waits for thread %d%s", at, name, all[at].server,
                      all[at].server == tid ? "\n" : ",");
        at = all[at].server;
    } while (at != tid);
    if (write(STDERR_FILENO, text, (size_t)(to - text)) < 0) return;
}

/* Reports each circle once, when two looks in a row find it. The front's own thread calls this. */
static void tell_circles(void) {
    static uint64_t seen[SEATS + 1], told_of[SEATS + 1]; /* by the lowest tid of a circle */
    struct neutrino_blocked all[256];
    if (neutrino_look(kernel, all)) return;
    for (int tid = 1; tid <= SEATS; tid++) {
        uint64_t circle = circle_of(all, tid);
        if (circle & ((1ull << tid) - 1)) circle = 0; /* it is reported at a lower tid */
        bool tells = circle && circle == seen[tid] && circle != told_of[tid];
        if (tells) tell_circle(all, tid);
        if (tells || !circle) told_of[tid] = circle;
        seen[tid] = circle;
    }
}
