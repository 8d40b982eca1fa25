/* balsaeuchred: one kernel for the programs that connect to a socket. Tested, not proved. */
#define _GNU_SOURCE
#include "daemon.h"

#include <malloc.h>
#include <sys/signalfd.h>
#include <time.h>

/* The layer's functions on locks and words. The daemon has only one thread, so locks and wake-ups do
 * nothing. */
enum woken { HAS_ENDED, TIMED_OUT, WAS_INTERRUPTED };
static void lock(neutrino *of) { (void)of; }
static void unlock(neutrino *of) { (void)of; }
static void wake(neutrino *of, uint64_t asleep) {
    (void)of;
    (void)asleep;
}
static bool is_ended(struct place *p) { return !p->call; }
static void open_word(struct place *p, bool interrupted) { p->word = interrupted ? INTERRUPTED : OPEN; }
static uint64_t tell(neutrino *of, uint64_t ended);

static uint64_t now(void) {
    struct timespec t;
    clock_gettime(CLOCK_MONOTONIC, &t);
    return (uint64_t)t.tv_sec * 1000000000u + (uint64_t)t.tv_nsec;
}

#include "names.c"
#include "endings.c"
#include "timeouts.c"
#include "under_lock.c"

#include "version.c"
#include "options.c"
#include "record.c"
#include "sockets.c"
#include "listener.c"
#include "hidden.c"
#include "calls.c"
#include "processes.c"
#include "services.c"
#include "show.c"
#include "turns.c"
#include "packets.c"

static bool stops; /* a signal has asked for the end; in the epoll its address marks signals */
/* Nanoseconds for which the daemon looks at boxes without news before it sleeps. 0 on one processor. */
static unsigned awake;

enum { AWAKE = 20000, DUE = 50000 }; /* nanoseconds */

/* Opens the kernel: seats and a clock for each process, and the daemon's own thread. Returns 0 or an
 * error. */
static uint32_t open_all(void) {
    balsaeuchre_thread roster[PLACES];
    size_t length = 0;
    memset(k->place_of, PLACES, sizeof k->place_of);
    for (int process = 1; process <= limits.processes; process++) {
        for (int seat = 0; seat < threads_of(process); seat++) {
            uint8_t tid = (uint8_t)(length + 1);
            k->place_of[tid] = (uint8_t)length;
            k->places[length] = (struct place){.word = ENDED, .tid = tid, .pid = (uint8_t)process, .looks = -1};
            roster[length++] = (balsaeuchre_thread){tid, (uint8_t)process, USUAL};
        }
    }
    for (int process = 1; process <= limits.processes; process++) {
        k->clock_of[process] = clock_of(process);
        roster[length++] = (balsaeuchre_thread){clock_of(process), (uint8_t)process, USUAL};
    }
    roster[length++] = (balsaeuchre_thread){SYSTEM, SYSTEM, USUAL};
    open_tables(k);
    k->tables[MESSAGES].turns >>= SLOT_BITS; /* the low bits of an rcvid are its sender's process */
    k->tables[CONNECTIONS].turns >>= 1;      /* an scoid has a bit that no coid has */
    k->hooks.pulse = complete_pulse;
    open_notes();
    record_roster(roster, length);
    for (int at = 0; at < CLIENTS; at++) clients[at] = no_client;
    return balsaeuchre_open(roster, length, &k->library);
}

/* Ends the calls that have timed out. Returns the time of the next timeout, or 0. */
static uint64_t end_late_calls(void) {
    uint64_t next = 0, time = 0;
    for (int at = 0; at < PLACES; at++) {
        struct client *c = client_of[at];
        if (!c || !k->places[at].call || !c->call.until) continue;
        if (!time) time = now();
        if (c->call.until <= time) interrupt(c, TIMED_OUT);
        if (k->places[at].call && c->call.until && (!next || c->call.until < next)) next = c->call.until;
    }
    return next;
}

/* The earlier of two times. 0: none. */
static uint64_t first_of(uint64_t one, uint64_t other) { return one && (!other || one < other) ? one : other; }

/* Waits for packets and bells, or only looks for them. Takes one packet from each socket that has any. */
static void take_packets(bool sleeps) {
    struct epoll_event ready[64];
    uint64_t next = first_of(end_late_calls(), rests_until), time = now();
    wake_threads(); /* the threads whose calls have just ended */
    if (ending) next = first_of(next, time + RETRY * 1000000u);
    if (has_later) next = first_of(next, time + SOON);
    uint64_t left = sleeps && next > time ? next - time : 0;
    struct timespec until = {(time_t)(left / 1000000000u), (long)(left % 1000000000u)};
    int count = epoll_pwait2(events, ready, 64, !sleeps || next ? &until : NULL, NULL);
    for (int at = 0; at < count; at++) {
        struct client *c = ready[at].data.ptr;
        if (!c) accept_client();
        else if (c == (const void *)&stops) stops = true;
        else if (is_place(c)) look_at_program((void *)c);
        else if (c != (const void *)&bell && c->fd != -1) read_packet(c);
    }
    end_rest();
}

/* Takes the requests in the boxes. If there was no news for a while, the daemon sleeps. */
static void serve_once(void) {
    static uint64_t awake_until, due; /* due: the time of the next look at the sockets */
    static uint64_t retry;            /* when ends of programs are tried again */
    bool found = look_at_boxes();
    uint64_t time = turn;
    bool sleeps = !found && time >= awake_until;
    if (sleeps) {
        want_bells();
        found = look_at_boxes();
        sleeps = !found;
    }
    wake_threads();
    if (found) awake_until = time + awake;
    else __builtin_ia32_pause();
    if (sleeps || time >= due) {
        take_packets(sleeps);
        due = time + DUE;
    }
    leave_seats();
    if (ending && now() >= retry) {
        for (int process = 1; process <= limits.processes; process++) {
            if (processes[process].retries) end_connections(process, false);
        }
        retry = now() + RETRY * 1000000u;
    }
}

/* Opens the standard files that are closed. Otherwise another file would get their numbers. */
static void open_standard_files(void) {
    int fd = open("/dev/null", O_RDWR);
    while (fd >= 0 && fd <= STDERR_FILENO) fd = open("/dev/null", O_RDWR);
    if (fd != -1) close(fd);
}

/* Opens the socket, and then the file of the record. If another daemon has the
 * socket, the file stays as it is. */
static bool open_files(const char *path) {
    if (!open_listener(path)) return false;
    if (record_file) record = open(record_file, O_WRONLY | O_CREAT | O_TRUNC | O_CLOEXEC, 0600);
    return !record_file || record != -1 || complain("--record %s: %s", record_file, strerror(errno));
}

/* Serves until a signal asks for the end. Returns the status. */
static int run(void) {
    sigset_t signals;
    cpu_set_t processors;
    sigemptyset(&signals);
    sigaddset(&signals, SIGTERM);
    sigaddset(&signals, SIGINT);
    sigprocmask(SIG_BLOCK, &signals, NULL);
    awake = sched_getaffinity(0, sizeof processors, &processors) || CPU_COUNT(&processors) > 1 ? AWAKE : 0;
    events = epoll_create1(EPOLL_CLOEXEC);
    int signal = signalfd(-1, &signals, SFD_CLOEXEC);
    bool watches = watch(listener, EPOLLIN, NULL) && watch(signal, EPOLLIN, &stops);
    if (!watches) return !complain("epoll: %s", strerror(errno));
    if (open_all()) return !complain("no memory");
    while (!stops) serve_once();
    return 0;
}

/* Whether header and library have one version, and both are proved or both unproved. Reports an unproved
 * kernel on standard error. */
static bool has_its_library(void) {
    if (balsaeuchre_version() != BALSAEUCHRE_VERSION)
        return complain(
            "its header and its library have other versions, or one of them is unproved: build it again, by "
            "foreign/install");
    if (BALSAEUCHRE_VERSION & BALSAEUCHRE_UNPROVED) fputs("balsaeuchred: its kernel is unproved\n", stderr);
    return true;
}

int main(int count, char **words) {
    const char *path = NULL;
    open_standard_files();
    /* Long calls come again and again, and fresh pages take longer than copies. */
    mallopt(M_MMAP_THRESHOLD, KEPT / 2);
    mallopt(M_TRIM_THRESHOLD, KEPT);
    int status = read_options(count, words, &path);
    if (status != -1) return status;
    status = has_its_library() && open_files(path) ? run() : 1;
    remove_socket(path);
    for (int at = 0; at < CLIENTS; at++) {
        if (clients[at].is_used) free_client(&clients[at]);
    }
    balsaeuchre_close(&k->library);
    free(k->event.bytes);
    free(k->side.bytes);
    return status;
}
