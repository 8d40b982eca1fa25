/* Keeps each call of the library in the order of the layer's lock, and the results that each thread got from
 * its own calls. When a kernel is freed, one thread makes all its calls again. Each event must be the same as
 * before, and each completion must be the same as the result that its thread got. Linked with --wrap for each
 * function that has a __wrap_ here.
 */
#include "tests.h"
#include "balsaeuchre.h"

#include <stdbool.h>

enum { KERNELS = 4, THREADS = 256 };

struct got {
    long result;
    int error;
    uint8_t *bytes;
};
struct entry {
    balsaeuchre_request request;
    uint8_t *sent, *room, *bytes;
    size_t sent_len, room_len, bytes_len;
    balsaeuchre_ending *rows;
    balsaeuchre_done done;
    uint32_t answer;
    bool is_hidden; /* the layer made the call, and its thread didn't ask for it */
};
struct gots {
    struct got *all;
    size_t count, size, turn;
    int kind;
};
struct record {
    void *place; /* the library's kernel, or null */
    neutrino *kernel;
    balsaeuchre_thread roster[THREADS];
    size_t roster_len;
    bool is_thread[THREADS]; /* the others of the roster are the layer's clocks */
    struct entry *entries;
    size_t count, size;
    struct gots gots[THREADS]; /* by thread; kind is the kind of its current call */
};

static struct record records[KERNELS];
static pthread_mutex_t opening = PTHREAD_MUTEX_INITIALIZER;
static _Thread_local struct record *mine, *newest;
static _Thread_local int my_tid;
static _Thread_local bool is_event; /* the library took this thread's own call */
static size_t again, compared;

static void *grow(void *all, size_t count, size_t *size, size_t each) {
    if (count < *size) return all;
    *size = 2 * *size + 64;
    return realloc(all, *size * each);
}

static uint8_t *copy_of(const void *bytes, size_t length) {
    uint8_t *copy = malloc(length + sizeof(struct _pulse));
    if (length) memcpy(copy, bytes, length);
    return copy;
}

static struct record *record_of(const void *place) {
    for (int at = 0; at < KERNELS; at++) {
        if (records[at].place == place) return &records[at];
    }
    return NULL;
}

/* ---- the library's functions */

uint32_t __real_balsaeuchre_new(const balsaeuchre_thread *threads, size_t thread_count, void **place);
void __real_balsaeuchre_free(balsaeuchre handle);
uint32_t __real_balsaeuchre_make_call(balsaeuchre *handle, const balsaeuchre_request *request, const uint8_t *sent,
                                      size_t sent_len, const uint8_t *room, size_t room_len, balsaeuchre_ending *rows,
                                      size_t row_count, uint8_t *bytes, size_t bytes_len, balsaeuchre_done *done);

uint32_t __wrap_balsaeuchre_new(const balsaeuchre_thread *threads, size_t thread_count, void **place) {
    uint32_t error = __real_balsaeuchre_new(threads, thread_count, place);
    if (error) return error;
    pthread_mutex_lock(&opening);
    struct record *r = record_of(NULL);
    check(r);
    memset(r, 0, sizeof *r);
    r->place = *place;
    memcpy(r->roster, threads, thread_count * sizeof *threads);
    r->roster_len = thread_count;
    newest = r;
    pthread_mutex_unlock(&opening);
    return 0;
}

/* The layer calls it under its lock. */
uint32_t __wrap_balsaeuchre_make_call(balsaeuchre *handle, const balsaeuchre_request *request, const uint8_t *sent,
                                      size_t sent_len, const uint8_t *room, size_t room_len, balsaeuchre_ending *rows,
                                      size_t row_count, uint8_t *bytes, size_t bytes_len, balsaeuchre_done *done) {
    uint32_t error = __real_balsaeuchre_make_call(handle, request, sent, sent_len, room, room_len, rows, row_count,
                                                  bytes, bytes_len, done);
    struct record *r = record_of(handle->place);
    if (!r) return error; /* a kernel that a child opened, or that is made again */
    r->entries = grow(r->entries, r->count, &r->size, sizeof *r->entries);
    struct entry *e = &r->entries[r->count++];
    *e = (struct entry){.request = *request, .sent_len = sent_len, .room_len = room_len, .answer = error};
    e->sent = copy_of(sent, sent_len);
    e->room = copy_of(room, room_len);
    e->is_hidden = r->gots[request->thread].kind != request->kind;
    if (error) return error;
    e->done = *done;
    e->rows = (balsaeuchre_ending *)(void *)copy_of(rows, done->endings * sizeof *rows);
    e->bytes = copy_of(bytes, done->bytes);
    e->bytes_len = bytes_len;
    if (!e->is_hidden) is_event = true;
    return 0;
}

/* ---- comparing */

static void differs(const char *what, size_t at) {
    fprintf(stderr, "call %zu made again: %s\n", at, what);
    _exit(1);
}

#define SAME(field) (a->field == b->field)
static bool is_same(const balsaeuchre_ending *a, const balsaeuchre_ending *b) {
    return SAME(call) && SAME(thread) && SAME(mark) && SAME(errno_) && SAME(priority) && SAME(state) && SAME(what) &&
           SAME(pulse_code) && SAME(process) && SAME(value) && SAME(sender) && SAME(id) && SAME(rcvid) &&
           SAME(status) && SAME(count) && SAME(srcmsglen) && SAME(dstmsglen) && SAME(start) && SAME(length) &&
           SAME(written);
}

static int error_of(const balsaeuchre_ending *row, const struct got *got) {
    static const int errors[] = {0, ESRCH, EBADF, EINVAL, EAGAIN, EINTR, EBUSY, ENOMEM, ESHUTDOWN, EOVERFLOW};
    if (row->mark == BALSAEUCHRE_ERRORED) return row->value;
    if (row->mark != BALSAEUCHRE_FAILED) return 0;
    return row->errno_ == BALSAEUCHRE_INTR && got->error == ETIMEDOUT ? ETIMEDOUT : errors[row->errno_];
}

static bool is_result(const balsaeuchre_ending *row, const struct got *got) {
    struct _pulse pulse;
    switch (row->mark) {
    case BALSAEUCHRE_REPLIED:
        return got->result == row->status;
    case BALSAEUCHRE_COUNT:
        return got->result == (long)row->count;
    case BALSAEUCHRE_THREAD_STATE:
        return got->result == row->state || got->result == row->priority;
    case BALSAEUCHRE_PULSED:
        if (row->what != BALSAEUCHRE_WHAT_USER) return got->result == 0;
        memcpy(&pulse, got->bytes, sizeof pulse);
        return got->result == 0 && pulse.code == row->pulse_code;
    case BALSAEUCHRE_MESSAGE:
    case BALSAEUCHRE_CHANNEL:
    case BALSAEUCHRE_CONNECTION:
        return got->result > 0;
    case BALSAEUCHRE_DONE:
    case BALSAEUCHRE_INFORMED:
        return got->result == 0;
    default:
        return got->result == -1;
    }
}

static void compare_got(struct record *r, const struct entry *e, const balsaeuchre_ending *row, size_t at) {
    struct gots *gots = &r->gots[row->thread];
    if (gots->turn == gots->count) differs("an ending that its thread did not get", at);
    const struct got *got = &gots->all[gots->turn++];
    if (error_of(row, got) != got->error) differs("another errno", at);
    if (!is_result(row, got)) differs("another result", at);
    if (row->written && memcmp(got->bytes, e->bytes + row->start, row->written)) differs("another buffer", at);
    compared++;
}

static void compare(struct record *r, const struct entry *e, balsaeuchre *kernel, size_t at) {
    static balsaeuchre_event event;
    event.bytes = malloc(e->bytes_len + 1);
    event.bytes_len = e->bytes_len;
    uint32_t answer = __real_balsaeuchre_make_call(kernel, &e->request, e->sent, e->sent_len, e->room, e->room_len,
                                                   event.rows, BALSAEUCHRE_ROWS, event.bytes, event.bytes_len,
                                                   &event.done);
    if (answer != e->answer) differs("another answer", at);
    again++;
    if (answer) {
        free(event.bytes);
        return;
    }
    if (event.done.endings != e->done.endings || event.done.bytes != e->done.bytes) differs("other counts", at);
    if (memcmp(event.bytes, e->bytes, e->done.bytes)) differs("other bytes", at);
    for (size_t place = 0; place < event.done.endings; place++) {
        const balsaeuchre_ending *row = &e->rows[place];
        if (!is_same(row, &event.rows[place])) differs("another row", at);
        bool is_own = row->thread == e->request.thread;
        if (!(is_own && e->is_hidden) && r->is_thread[row->thread]) compare_got(r, e, row, at);
    }
    free(event.bytes);
}

static void make_again(struct record *r) {
    balsaeuchre kernel = BALSAEUCHRE_NONE;
    check(__real_balsaeuchre_new(r->roster, r->roster_len, &kernel.place) == 0);
    for (size_t at = 0; at < r->count; at++) {
        struct entry *e = &r->entries[at];
        compare(r, e, &kernel, at);
        free(e->sent);
        free(e->room);
        free(e->rows);
        free(e->bytes);
    }
    for (int thread = 0; thread < THREADS; thread++) {
        struct gots *gots = &r->gots[thread];
        if (gots->turn != gots->count) differs("a thread got more", r->count);
        for (size_t at = 0; at < gots->count; at++) free(gots->all[at].bytes);
        free(gots->all);
    }
    free(r->entries);
    __real_balsaeuchre_free(kernel);
}

void __wrap_balsaeuchre_free(balsaeuchre handle) {
    struct record *r = record_of(handle.place);
    if (r) {
        make_again(r);
        r->place = NULL;
    }
    __real_balsaeuchre_free(handle);
}

__attribute__((destructor)) static void report(void) {
    if (again) printf("%zu calls made again, %zu endings the same\n", again, compared);
}

/* ---- the layer's functions */

neutrino *__real_neutrino_open_version(uint32_t version, const struct neutrino_thread *threads, size_t count);
int __real_neutrino_join(neutrino *kernel, int tid);

neutrino *__wrap_neutrino_open_version(uint32_t version, const struct neutrino_thread *threads, size_t count) {
    neutrino *kernel = __real_neutrino_open_version(version, threads, count);
    if (!kernel) return NULL;
    newest->kernel = kernel;
    for (size_t at = 0; at < count; at++) newest->is_thread[threads[at].tid] = true;
    return kernel;
}

int __wrap_neutrino_join(neutrino *kernel, int tid) {
    int result = __real_neutrino_join(kernel, tid);
    if (result) return result;
    for (int at = 0; at < KERNELS; at++) {
        if (records[at].place && records[at].kernel == kernel) mine = &records[at];
    }
    my_tid = tid;
    return 0;
}

static void begin(int kind) {
    is_event = false;
    if (mine) mine->gots[my_tid].kind = kind;
}

static void keep(long result, const void *bytes, size_t length) {
    if (!mine || !is_event) return;
    struct gots *gots = &mine->gots[my_tid];
    gots->all = grow(gots->all, gots->count, &gots->size, sizeof *gots->all);
    gots->all[gots->count++] = (struct got){result, result == -1 ? errno : 0, copy_of(bytes, length)};
    is_event = false;
}

#define WRAP(type, name, kind, parameters, arguments, bytes, length) \
    type __real_##name parameters; \
    type __wrap_##name parameters { \
        begin(BALSAEUCHRE_##kind); \
        errno = 0; \
        type result = __real_##name arguments; \
        int error = errno; \
        keep(result, bytes, length); \
        errno = error; \
        return result; \
    }

WRAP(int, ChannelCreate, CHANNEL_CREATE, (unsigned flags), (flags), NULL, 0)
WRAP(int, ChannelDestroy, CHANNEL_DESTROY, (int chid), (chid), NULL, 0)
WRAP(int, ConnectAttach, CONNECT_ATTACH, (uint32_t nd, pid_t pid, int chid, unsigned index, int flags),
     (nd, pid, chid, index, flags), NULL, 0)
WRAP(int, ConnectDetach, CONNECT_DETACH, (int coid), (coid), NULL, 0)
WRAP(long, MsgSend, SEND, (int coid, const void *smsg, size_t sbytes, void *rmsg, size_t rbytes),
     (coid, smsg, sbytes, rmsg, rbytes), rmsg, rbytes)
WRAP(int, MsgReceive, RECEIVE, (int chid, void *msg, size_t bytes, struct _msg_info *info), (chid, msg, bytes, info),
     msg, bytes)
WRAP(int, MsgReceivePulse, RECEIVE_PULSE, (int chid, void *pulse, size_t bytes, struct _msg_info *info),
     (chid, pulse, bytes, info), pulse, bytes)
WRAP(int, MsgReply, REPLY, (int rcvid, long status, const void *msg, size_t bytes), (rcvid, status, msg, bytes), NULL,
     0)
WRAP(int, MsgError, ERROR, (int rcvid, int error_), (rcvid, error_), NULL, 0)
WRAP(ssize_t, MsgRead, READ, (int rcvid, void *msg, size_t bytes, size_t offset), (rcvid, msg, bytes, offset), msg,
     bytes)
WRAP(ssize_t, MsgWrite, WRITE, (int rcvid, const void *msg, size_t bytes, size_t offset), (rcvid, msg, bytes, offset),
     NULL, 0)
WRAP(int, MsgInfo, INFO, (int rcvid, struct _msg_info *info), (rcvid, info), NULL, 0)
WRAP(int, MsgSendPulse, PULSE, (int coid, int priority, int code, int value), (coid, priority, code, value), NULL, 0)
WRAP(int, SchedSet, PRIORITY_SET, (pid_t pid, int tid, int policy, const struct sched_param *param),
     (pid, tid, policy, param), NULL, 0)
WRAP(int, neutrino_state, STATE, (int tid), (tid), NULL, 0)
WRAP(int, neutrino_priority, STATE, (int tid), (tid), NULL, 0)
WRAP(int, neutrino_unblock, UNBLOCK, (int tid), (tid), NULL, 0)
