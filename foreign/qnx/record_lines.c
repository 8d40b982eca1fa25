/* The lines of a record: the calls of a kernel, in the form of a script with names. Tested, not proved.
 *
 * The hook of the layer gets each call of the kernel, in the order in which the kernel made them, with all
 * completions that the call caused. So the number of a call is the number of its line among the lines of
 * calls, and each line has the expectation of its call. Buffers are recorded as zeros, since their bytes are
 * in no result. The bytes of a message that is too long for a line are recorded as zeros, too. The file that
 * includes this file defines the names of threads and processes.
 */
#include <stdarg.h>

enum { LINE = 4000, LONGEST = 800, MOST = 4096, WHOLE = 4194304 - 2 * LINE };

/* A line that grows. */
struct line {
    char text[2 * LINE];
    size_t length;
};

__attribute__((format(printf, 2, 3))) static void add(struct line *line, const char *form, ...) {
    va_list arguments;
    size_t room = sizeof line->text - line->length;
    va_start(arguments, form);
    int length = vsnprintf(line->text + line->length, room, form, arguments);
    va_end(arguments);
    if (length > 0) line->length += (size_t)length < room ? (size_t)length : room - 1;
}

static void add_thread(struct line *line, int tid);
static const char *process_name(int process);

/* Adds bytes in the form of a script, or zeros. */
static void add_bytes(struct line *line, const void *bytes, size_t length, bool zeros) {
    const uint8_t *from = bytes;
    bool is_text = true;
    if (length > MOST) length = MOST;
    if (!length || zeros) {
        add(line, length ? " [%zu]" : " -", length);
        return;
    }
    for (size_t at = 0; at < length; at++) is_text &= (from[at] >= ' ' && from[at] <= '~') || (at && !from[at]);
    add(line, is_text ? " \"" : " ");
    for (size_t at = 0; at < length; at++) {
        if (is_text && (from[at] == '"' || from[at] == '\\' || !from[at])) add(line, "\\");
        add(line, is_text ? "%c" : "%02x", is_text && !from[at] ? '0' : from[at]);
    }
    if (is_text) add(line, "\"");
}

/* Adds the name of the channel, connection, message or pulse with this id, which is the number of the call
 * that made it. The id 0 has the name 0: no call made it. */
static void add_name(struct line *line, const char *kind, uint64_t id) {
    add(line, id ? " %s%llu" : " 0", id ? kind : "", (unsigned long long)id);
}

static char open_as[256]; /* by tid: the first letter of the name of the thread's blocked call */

/* A call's word, the letters of the name that it makes, and the letters of the name that is its first
 * operand. */
static const struct {
    const char *word, *makes, *names;
} kinds[] = {
    [BALSAEUCHRE_CHANNEL_CREATE] = {"create", "ch", NULL},
    [BALSAEUCHRE_CHANNEL_DESTROY] = {"destroy", NULL, "ch"},
    [BALSAEUCHRE_CONNECT_ATTACH] = {"attach", "co", "ch"},
    [BALSAEUCHRE_CONNECT_DETACH] = {"detach", "d", "co"},
    [BALSAEUCHRE_SEND] = {"send", "m", "co"},
    [BALSAEUCHRE_RECEIVE] = {"receive", "r", "ch"},
    [BALSAEUCHRE_RECEIVE_PULSE] = {"receivepulse", "r", "ch"},
    [BALSAEUCHRE_REPLY] = {"reply", NULL, "m"},
    [BALSAEUCHRE_ERROR] = {"error", NULL, "m"},
    [BALSAEUCHRE_READ] = {"read", NULL, "m"},
    [BALSAEUCHRE_WRITE] = {"write", NULL, "m"},
    [BALSAEUCHRE_INFO] = {"info", NULL, "m"},
    [BALSAEUCHRE_PULSE] = {"pulse", "p", "co"},
    [BALSAEUCHRE_PRIORITY_SET] = {"setprio", NULL, NULL},
    [BALSAEUCHRE_STATE] = {"state", NULL, NULL},
    [BALSAEUCHRE_UNBLOCK] = {"unblock", "u", NULL},
    [BALSAEUCHRE_SHUTDOWN] = {"shutdown", NULL, NULL},
};

/* A call with its buffers, as the hook gets them. */
struct made {
    const balsaeuchre_request *request;
    const void *sent;
    size_t sent_len, room_len;
};

static void add_call(struct line *line, const struct made *made) {
    const balsaeuchre_request *r = made->request;
    add(line, " %s", kinds[r->kind].word);
    if (kinds[r->kind].names) add_name(line, kinds[r->kind].names, r->id);
    switch (r->kind) {
    case BALSAEUCHRE_CHANNEL_CREATE:
        add(line, " %d", r->flags);
        break;
    case BALSAEUCHRE_REPLY:
        add(line, " %lld", (long long)r->status);
        break;
    case BALSAEUCHRE_ERROR:
        add(line, " %d", r->code);
        break;
    case BALSAEUCHRE_READ:
    case BALSAEUCHRE_WRITE:
        add(line, " %zu", r->offset);
        break;
    case BALSAEUCHRE_PULSE:
        add(line, " %d %d %d", r->priority, r->pulse_code, r->value);
        break;
    case BALSAEUCHRE_PRIORITY_SET:
    case BALSAEUCHRE_STATE:
    case BALSAEUCHRE_UNBLOCK:
        add(line, " ");
        add_thread(line, r->target);
        break;
    default:
        break;
    }
    if (r->kind == BALSAEUCHRE_PRIORITY_SET) add(line, " %d", r->priority);
    if (r->kind == BALSAEUCHRE_SEND || r->kind == BALSAEUCHRE_REPLY || r->kind == BALSAEUCHRE_WRITE)
        add_bytes(line, made->sent, made->sent_len, made->sent_len > LONGEST);
    if (r->kind == BALSAEUCHRE_SEND || r->kind == BALSAEUCHRE_RECEIVE || r->kind == BALSAEUCHRE_READ)
        add_bytes(line, NULL, made->room_len, true);
}

static void add_pulse(struct line *line, const balsaeuchre_ending *row) {
    const char *kind = row->what == BALSAEUCHRE_WHAT_USER ? "p" : row->what == BALSAEUCHRE_WHAT_UNBLOCK ? "u" : "d";
    add(line, "pulse");
    add_name(line, kind, row->id);
    add(line, " %d", row->priority);
    if (row->what == BALSAEUCHRE_WHAT_USER) add(line, " user %d %d", row->pulse_code, row->value);
    if (row->what == BALSAEUCHRE_WHAT_DISCONNECT) add(line, " disconnect %s", process_name(row->process));
    if (row->what == BALSAEUCHRE_WHAT_UNBLOCK) {
        add(line, " unblock");
        add_name(line, "m", row->rcvid);
    }
}

/* Adds the result of a call. It leaves out bytes and lengths that exceed the recorded part of a message or a
 * buffer. */
static void add_result(struct line *line, const balsaeuchre_ending *row, const struct made *made,
                       const uint8_t *bytes) {
    size_t offset = made->request->offset;
    static const char *const errors[] = {"ok", "srch", "badf", "inval", "again", "intr", "busy", "nomemory", "down"};
    static const char *const states[] = {"", "ready", "send", "receive", "reply"};
    switch (row->mark) {
    case BALSAEUCHRE_DONE:
        add(line, "ok");
        break;
    case BALSAEUCHRE_FAILED:
        add(line, "fail %s", row->errno_ < 9 ? errors[row->errno_] : "*");
        break;
    case BALSAEUCHRE_CHANNEL:
        add(line, "channel");
        add_name(line, "ch", row->id);
        break;
    case BALSAEUCHRE_CONNECTION:
        add(line, "connection");
        add_name(line, "co", row->id);
        break;
    case BALSAEUCHRE_ERRORED:
        add(line, "error %d", row->value);
        break;
    case BALSAEUCHRE_REPLIED:
        add(line, "reply %lld", (long long)row->status);
        if (made->sent_len <= LONGEST) add_bytes(line, bytes + row->start, row->count, false);
        break;
    case BALSAEUCHRE_MESSAGE:
        add(line, "message");
        add_name(line, "m", row->rcvid);
        if (row->srcmsglen <= LONGEST) add_bytes(line, bytes + row->start, row->count, false);
        break;
    case BALSAEUCHRE_COUNT:
        add(line, offset <= MOST && row->count <= MOST - offset ? "count %zu" : "count", row->count);
        break;
    case BALSAEUCHRE_INFORMED:
        add(line, "info %s ", process_name(row->process));
        add_thread(line, row->sender);
        add_name(line, "co", row->id);
        if (row->srcmsglen <= MOST && row->dstmsglen <= MOST)
            add(line, " %zu %zu %zu %d", row->count, row->srcmsglen, row->dstmsglen, row->priority);
        break;
    case BALSAEUCHRE_PULSED:
        add_pulse(line, row);
        break;
    default:
        add(line, "state %s", states[row->state & 7]);
        if (row->state != BALSAEUCHRE_READY) add_name(line, "ch", row->id);
        add(line, " %d", row->priority);
    }
}

/* Adds the completion of the call, and the completions of other threads' calls that it has caused. */
static void add_results(struct line *line, const struct made *made, const balsaeuchre_event *event) {
    int caller = made->request->thread;
    bool blocks = true;
    for (size_t at = 0; at < event->done.endings; at++) blocks &= event->rows[at].thread != caller;
    add(line, " -> %s", blocks ? "blocked" : "");
    for (size_t at = 0; at < event->done.endings; at++) {
        if (event->rows[at].thread == caller) add_result(line, &event->rows[at], made, event->bytes);
    }
    for (size_t at = 0; at < event->done.endings; at++) {
        const balsaeuchre_ending *row = &event->rows[at];
        if (row->thread == caller) continue;
        add(line, "; %c%llu -> ", open_as[row->thread], (unsigned long long)row->call);
        add_result(line, row, made, event->bytes);
    }
    add(line, "\n");
}

/* Adds the whole line of a call. */
static void add_made(struct line *line, const struct made *made, const balsaeuchre_event *event) {
    const char *letters = kinds[made->request->kind].makes;
    open_as[made->request->thread] = letters ? letters[0] : 0;
    if (letters) add(line, "%s%llu = ", letters, (unsigned long long)event->done.call);
    add_thread(line, made->request->thread);
    add_call(line, made);
    add_results(line, made, event);
}
