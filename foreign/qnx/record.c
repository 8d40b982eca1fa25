/* Records a run as a script with names, in the file that BALSAEUCHRE_RECORD names. Tested, not proved.
 *
 * In the text a thread is the byte MARK and the thread's number. The thread's name replaces them when the
 * text is written. The whole text is written again when a thread gets a name.
 */
#include <fcntl.h>

enum { MARK = 1, NAME_ROOM = 24 };

static struct {
    int fd;                     /* -1: nothing is recorded */
    size_t length, written;     /* of the lines below, and of the file */
    char names[256][NAME_ROOM]; /* of threads; empty: the thread has no line yet */
} record = {.fd = -1};
static char lines[WHOLE];
/* Protects the record. It is taken under the kernel's lock. */
static pthread_mutex_t recording = PTHREAD_MUTEX_INITIALIZER;

static void write_text(const char *text, size_t length) {
    while (length) {
        ssize_t count = write(record.fd, text, length);
        if (count <= 0) return;
        record.written += (size_t)count;
        text += count;
        length -= (size_t)count;
    }
}

/* Writes a part of the text with the names of its threads. */
static void write_named(const char *text, size_t length) {
    size_t from = 0;
    for (size_t at = 0; at + 1 < length; at++) {
        if (text[at] != MARK) continue;
        const char *name = record.names[(uint8_t)text[at + 1]];
        write_text(text + from, at - from);
        write_text(name, strlen(name));
        from = ++at + 1;
    }
    write_text(text + from, length - from);
}

static void write_all(void) {
    static struct line line; /* under the record's lock; a stack may be too short */
    line.length = 0;
    record.written = 0;
    if (ftruncate(record.fd, 0) || lseek(record.fd, 0, SEEK_SET)) return;
    for (int tid = 0; tid < 256; tid++) {
        const char *process = tid == SYSTEM ? "system" : "program";
        if (!*record.names[tid]) continue;
        add(&line, "%s = thread %d %s %d\n", record.names[tid], tid, process, tid <= SYSTEM ? USUAL : LOWEST);
    }
    write_text(line.text, line.length);
    write_named(lines, record.length);
}

/* Gives a thread a name that is valid in a script, and that no other thread and no call has. */
static void name_line(int tid, const char *from) {
    char name[NAME_ROOM];
    int length = 0;
    if (!((*from | 32) >= 'a' && (*from | 32) <= 'z')) name[length++] = '_';
    for (; *from && length < THREAD_NAME; from++) {
        bool is_letter = (*from | 32) >= 'a' && (*from | 32) <= 'z';
        name[length++] = is_letter || (*from >= '0' && *from <= '9') || *from == '-' || *from == '.' ? *from : '_';
    }
    name[length] = 0;
    bool is_used = strspn(name, "chomrpud") + strspn(name + strspn(name, "chomrpud"), "0123456789") == strlen(name);
    for (int other = 0; other < 256; other++) is_used |= other != tid && !strcmp(record.names[other], name);
    snprintf(record.names[tid], NAME_ROOM, is_used ? "%s.%d" : "%s", name, tid);
}

/* Gives a thread its line with a name, if it has none. The caller has the record's lock. */
static void list_thread(int tid) {
    char name[NAME_ROOM] = "clock";
    if (*record.names[tid]) return;
    if (tid <= SEATS) snprintf(name, sizeof name, "t%d", tid);
    else if (tid == TICKER) strcpy(name, "timers");
    else if (tid == SYSTEM) strcpy(name, "system");
    name_line(tid, name);
    write_all();
}

/* Records that a thread has taken a seat, or has got another name. */
static void record_seat(int tid, pthread_t thread) {
    char name[THREAD_NAME], programs[THREAD_NAME];
    if (record.fd == -1 || pthread_getname_np(thread, name, sizeof name)) return;
    snprintf(programs, sizeof programs, "%s", program_invocation_short_name);
    bool is_named = strcmp(name, programs) != 0;
    pthread_mutex_lock(&recording);
    if (is_named) name_line(tid, name);
    if (!is_named && tid == 1 && !*record.names[tid]) name_line(tid, "main");
    if (is_named || tid == 1) write_all();
    pthread_mutex_unlock(&recording);
}

static void add_thread(struct line *line, int tid) {
    list_thread(tid);
    line->text[line->length++] = MARK;
    line->text[line->length++] = (char)tid;
}

static const char *process_name(int process) { return process == PROGRAM ? "program" : "system"; }

/* Keeps a line, or ends the record if the script would become too long. */
static void keep_line(const struct line *line) {
    static const char told_end[] = "balsaeuchre: the record is full at 4 MiB, and ends here\n";
    if (record.length + line->length <= WHOLE && record.written + line->length <= WHOLE) {
        memcpy(lines + record.length, line->text, line->length);
        record.length += line->length;
        write_named(line->text, line->length);
        return;
    }
    if (write(STDERR_FILENO, told_end, sizeof told_end - 1) < 0) errno = 0;
    close(record.fd);
    record.fd = -1;
}

/* The hook for a call that the kernel has made. */
static void record_call(const balsaeuchre_request *r, const void *sent, size_t sent_len, const void *room,
                        size_t room_len, const balsaeuchre_event *event) {
    static struct line line; /* under the record's lock; a stack may be too short */
    (void)room;
    pthread_mutex_lock(&recording);
    line.length = 0;
    if (record.fd != -1) {
        add_made(&line, &(struct made){r, sent, sent_len, room_len}, event);
        keep_line(&line);
    }
    pthread_mutex_unlock(&recording);
    watch_call(event);
}

/* Opens the record if the environment names a file for it. Returns the hooks of the run. */
static const struct neutrino_hooks *hooks_of_run(void) {
    static struct neutrino_hooks hooks = {NULL, complete_pulse};
    const char *file = getenv("BALSAEUCHRE_RECORD");
    record.fd = file && *file ? open(file, O_WRONLY | O_CREAT | O_TRUNC | O_CLOEXEC, 0666) : -1;
    if (file && *file && record.fd == -1) dprintf(STDERR_FILENO, "balsaeuchre: %s: %s\n", file, strerror(errno));
    if (record.fd != -1 || exploring) hooks.call = record_call;
    explore_kernel();
    return &hooks;
}

/* Forgets the record in a forked child, whose calls aren't its parent's. */
static void forget_record(void) {
    if (record.fd != -1) close(record.fd);
    pthread_mutex_init(&recording, NULL);
    memset(&record, 0, sizeof record);
    record.fd = -1;
    unsetenv("BALSAEUCHRE_RECORD");
}
