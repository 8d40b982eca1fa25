/* Records the calls of all programs as a script with names, which `qdemo script` makes
 * again. Tested, not proved.
 *
 * A thread has the name of its seat: program1.2 is the second seat of the first program. Comments in the
 * record say which thread takes a seat. */
#include "../qnx/record_lines.c"

static int record = -1; /* the file; -1: nothing is recorded */
static size_t recorded; /* the bytes of its lines so far */

/* Reads the host's name of a thread, with ? for each byte that isn't printable ASCII. If the
 * host has no name, it is ?. */
static void name_thread(pid_t pid, pid_t tid, char name[20]) {
    char path[60];
    snprintf(path, sizeof path, "/proc/%d/task/%d/comm", (int)pid, (int)tid);
    FILE *file = fopen(path, "re");
    if (!file || !fgets(name, 20, file)) strcpy(name, "?");
    if (file) fclose(file);
    name[strcspn(name, "\n")] = 0;
    for (char *at = name; *at; at++) *at = *at >= ' ' && *at <= '~' ? *at : '?';
}

static const char *process_name(int process) {
    static char name[16];
    snprintf(name, sizeof name, process == SYSTEM ? "system" : "program%d", process);
    return name;
}

static void add_thread(struct line *line, int tid) {
    int process = 1, seat = tid;
    for (; process < limits.processes && seat > threads_of(process); process++) seat -= threads_of(process);
    if (tid == SYSTEM) add(line, "daemon");
    else if (tid > CLOCKS) add(line, "clock%d", tid - CLOCKS);
    else add(line, "program%d.%d", process, seat);
}

/* Writes a line. If the script would be too long or the file takes no more bytes, the record ends instead. */
static void write_line(const struct line *line) {
    if (record == -1) return;
    bool fits = recorded + line->length <= WHOLE;
    recorded += line->length;
    if (fits && write(record, line->text, line->length) == (ssize_t)line->length) return;
    fprintf(stderr, "balsaeuchred: the record ends: %s\n", fits ? strerror(errno) : "it has 4 MiB");
    close(record);
    record = -1;
    k->hooks.call = NULL;
}

/* The layer's hook for each call that the kernel has made. */
static void record_call(const balsaeuchre_request *r, const void *sent, size_t sent_len, const void *room,
                        size_t room_len, const balsaeuchre_event *event) {
    struct line line = {.length = 0};
    (void)room;
    add_made(&line, &(struct made){r, sent, sent_len, room_len}, event);
    write_line(&line);
}

/* Begins the record with the kernel's threads. */
static void record_roster(const balsaeuchre_thread *roster, size_t length) {
    struct line line = {.length = 0};
    for (size_t at = 0; record != -1 && at < length; at++) {
        add_thread(&line, roster[at].thread);
        add(&line, " = thread %d %s %d\n", roster[at].thread, process_name(roster[at].process), roster[at].priority);
    }
    write_line(&line);
    if (record != -1) k->hooks.call = record_call;
}

/* Writes a comment to the record: a program's thread has taken a seat. */
static void record_seat(const struct client *c) {
    struct line line = {.length = 0};
    char name[20];
    name_thread(c->peer.pid, c->host_tid, name);
    add(&line, "# ");
    add_thread(&line, c->place->tid);
    add(&line, " is %s, thread %d of process %d\n", name, c->tid, (int)c->peer.pid);
    write_line(&line);
}
