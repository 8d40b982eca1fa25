/* Dispatch: messages, pulses and names, with each of their errors. */
#include "tests.h"

enum { FIRST = 0x500, LAST = 0x50f };

static struct {
    int code, value;
    unsigned flags;
    void *handle;
    size_t size;
} got;

static int note_message(message_context_t *ctp, int code, unsigned flags, void *handle) {
    got.code = code;
    got.flags = flags;
    got.handle = handle;
    got.size = ctp->size;
    got.value = ctp->info.srcmsglen == (ssize_t)ctp->size;
    check(ctp->rcvid > 0 && ctp->msg->type == code && ctp->info.pid == getpid());
    return MsgReply(ctp->rcvid, code, NULL, 0);
}

static int note_pulse(message_context_t *ctp, int code, unsigned flags, void *handle) {
    got.code = code;
    got.flags = flags;
    got.handle = handle;
    got.value = ctp->msg->pulse.value.sival_int;
    check(ctp->rcvid == 0 && ctp->msg->pulse.code == code);
    return -1; /* it changes nothing */
}

static void serve_one(dispatch_context_t *ctp) { check(dispatch_block(ctp) == ctp && dispatch_handler(ctp) == 0); }

static int coid_of_sender;

/* Sends a message of this type, and of this length. Its status is the result of the thread. */
struct request {
    uint16_t type;
    char text[4000];
};

static size_t length_of_request;

static void *send_type(void *type) {
    struct request request = {(uint16_t)(intptr_t)type, ""};
    long status = MsgSend(coid_of_sender, &request, length_of_request, NULL, 0);
    return (void *)(status == -1 ? -(long)errno : status);
}

/* The result of a message that one turn of the loop handles. */
static long status_of(dispatch_context_t *ctp, int type, size_t length) {
    length_of_request = length;
    pthread_t client = start(send_type, (void *)(intptr_t)type);
    serve_one(ctp);
    return result_of(client);
}

void dispatched(void) {
    dispatch_t *dpp = dispatch_create();
    message_attr_t attr = {.nparts_max = 3, .msg_max_size = 3000};
    check(dpp && message_attach(dpp, &attr, FIRST, LAST, note_message, &attr) == 0);
    coid_of_sender = message_connect(dpp, MSG_FLAG_SIDE_CHANNEL);
    check(coid_of_sender & _NTO_SIDE_CHANNEL);
    dispatch_context_t *ctp = dispatch_context_alloc(dpp);
    check(ctp && ctp->message_context.dpp == dpp && ctp->message_context.msg_max_size == 3000);
    memset(ctp->message_context.iov, 0, attr.nparts_max * sizeof(iov_t)); /* they are the program's */
    check(status_of(ctp, FIRST, 2) == FIRST && got.code == FIRST && got.handle == &attr && got.size == 2 && got.value);
    check(status_of(ctp, LAST, 3000) == LAST && got.size == 3000 && got.value);
    check(status_of(ctp, LAST, 3001) == LAST && got.size == 3000 && !got.value);
    check(status_of(ctp, FIRST - 1, 2) == -ENOSYS && status_of(ctp, LAST + 1, 2) == -ENOSYS);
    check(status_of(ctp, _IO_CONNECT, 2) == -ENOSYS);
    check(status_of(ctp, FIRST, 2) == FIRST && status_of(ctp, FIRST, 1) == -ENOSYS); /* it has no whole type */
    attr.msg_max_size = 3500;
    check(message_attach(dpp, &attr, 1, 1, note_message, NULL) == 0); /* the context grows */
    check(status_of(ctp, LAST, 3500) == LAST && got.size == 3500 && got.value);
    check(message_detach(dpp, FIRST, LAST, 0) == 0 && status_of(ctp, FIRST, 2) == -ENOSYS);
    dispatch_context_free(ctp);
    check(ConnectDetach(coid_of_sender) == 0 && dispatch_destroy(dpp) == 0);
}

/* The function for the messages that no range has. Its own range isn't used. */
void dispatched_others(void) {
    dispatch_t *dpp = dispatch_create();
    message_attr_t others = {.flags = MSG_FLAG_DEFAULT_FUNC};
    check(message_attach(dpp, &others, -5, -7, note_message, &others) == 0);
    check(message_attach(dpp, NULL, FIRST, LAST, note_message, dpp) == 0);
    fails(message_attach(dpp, &others, 1, 2, note_message, NULL), EINVAL);
    coid_of_sender = message_connect(dpp, MSG_FLAG_SIDE_CHANNEL);
    dispatch_context_t *ctp = dispatch_context_alloc(dpp);
    check(status_of(ctp, FIRST - 1, 2) == FIRST - 1 && got.handle == &others && got.flags == MSG_FLAG_DEFAULT_FUNC);
    check(status_of(ctp, FIRST, 2) == FIRST && got.handle == dpp && got.flags == 0);
    check(status_of(ctp, 0xffff, 2) == 0xffff && got.handle == &others);
    check(message_detach(dpp, -5, -7, 0) == 0 && status_of(ctp, 0xffff, 2) == -ENOSYS);
    dispatch_context_free(ctp);
    check(ConnectDetach(coid_of_sender) == 0 && dispatch_destroy(dpp) == 0);
}

/* Pulses of a chosen code, of a code of the kernel, and of no function. */
void dispatched_pulses(void) {
    int chid = ChannelCreate(_NTO_CHF_DISCONNECT), word;
    dispatch_t *dpp = dispatch_create_channel(chid, DISPATCH_FLAG_NOLOCK);
    check(dpp && pulse_attach(dpp, 0, 1, note_pulse, &word) == 1);
    dispatch_context_t *ctp = dispatch_context_alloc(dpp);
    check(pulse_attach(dpp, MSG_FLAG_ALLOC_PULSE, -77, note_pulse, NULL) == 0);
    check(pulse_attach(dpp, MSG_FLAG_ALLOC_PULSE, 0, note_pulse, NULL) == 2);
    check(pulse_attach(dpp, 0, _PULSE_CODE_DISCONNECT, note_pulse, dpp) == _PULSE_CODE_DISCONNECT);
    int coid = message_connect(dpp, 0);
    check(coid > 0 && !(coid & _NTO_SIDE_CHANNEL) && MsgSendPulse(coid, 10, 1, 44) == 0);
    serve_one(ctp);
    check(got.code == 1 && got.handle == &word && got.value == 44 && got.flags == 0);
    check(MsgSendPulse(coid, 10, 9, 45) == 0 && MsgSendPulse(coid, 9, 2, 46) == 0);
    serve_one(ctp); /* nobody wants it */
    check(got.value == 44);
    serve_one(ctp);
    check(got.value == 46 && got.code == 2 && pulse_detach(dpp, 2, 0) == 0 && MsgSendPulse(coid, 10, 2, 47) == 0);
    serve_one(ctp);
    check(got.value == 46 && ConnectDetach(coid) == 0);
    serve_one(ctp);
    check(got.code == _PULSE_CODE_DISCONNECT && got.handle == dpp);
    dispatch_context_free(ctp);
    check(dispatch_destroy(dpp) == 0 && ChannelDestroy(chid) == 0); /* the channel is the program's */
}

static void *open_a_name(void *name) { return (void *)(intptr_t)name_open(name, 0); }

/* A handle with a name: the dispatch replies to name_open. */
void dispatched_names(void) {
    dispatch_t *dpp = dispatch_create(), *second = dispatch_create();
    name_attach_t *attach = name_attach(dpp, "dispatched", 0);
    dispatch_context_t *ctp = dispatch_context_alloc(dpp);
    check(ctp && attach && attach->dpp == dpp && attach->chid > 0);
    check(!name_attach(dpp, "again", 0) && errno == EBUSY);
    check(!name_attach(second, "dispatched", 0) && errno == EEXIST);
    check(!name_attach(second, "/", 0) && errno == EINVAL);
    pthread_t client = start(open_a_name, "dispatched");
    serve_one(ctp);
    coid_of_sender = (int)result_of(client);
    check(coid_of_sender > 0 && status_of(ctp, FIRST, 2) == -ENOSYS);
    check(message_attach(dpp, NULL, FIRST, FIRST, note_message, NULL) == 0 && status_of(ctp, FIRST, 2) == FIRST);
    check(name_detach(attach, NAME_FLAG_DETACH_SAVEDPP) == 0 && status_of(ctp, FIRST, 2) == FIRST);
    check(status_of(ctp, _IO_CONNECT, 2) == -ENOSYS && name_close(coid_of_sender) == 0);
    attach = name_attach(dpp, "dispatched", 0);
    int chid = attach->chid;
    dispatch_context_free(ctp);
    check(name_detach(attach, 0) == 0); /* the handle ends with it */
    fails(ConnectAttach(ND_LOCAL_NODE, 0, chid, 0, 0), ESRCH);
    attach = name_attach(second, "dispatched", 0);
    check(attach && name_detach(attach, 0) == 0);
}

static void *block_in_context(void *ctp) {
    dispatch_context_t *blocked = dispatch_block(ctp);
    check(!blocked && dispatch_handler(ctp) == -1);
    return (void *)(intptr_t)gettid();
}

static void *block_for_error(void *ctp) { return (void *)(intptr_t)(dispatch_block(ctp) ? 0 : errno); }

void dispatch_ends(void) {
    struct timespec brief = {0, 1000000}, wrong = {0, -1};
    uint64_t left = 1;
    dispatch_t *dpp = dispatch_create();
    check(pulse_attach(dpp, 0, 1, note_pulse, NULL) == 1 && dispatch_timeout(dpp, &brief) == 0);
    dispatch_context_t *ctp = dispatch_context_alloc(dpp), *other = dispatch_context_alloc(dpp);
    check(!dispatch_block(ctp) && errno == ETIMEDOUT && !dispatch_block(ctp) && errno == ETIMEDOUT);
    fails(dispatch_timeout(dpp, &wrong), EINVAL);
    fails(dispatch_timeout(NULL, &brief), EINVAL);
    dispatch_unblock(ctp); /* it ends the next block, which sets no timeout for another call */
    check(!dispatch_block(ctp) && errno == EINTR && TimerTimeout(CLOCK_MONOTONIC, 0, NULL, NULL, &left) == 0 && !left);
    check(dispatch_timeout(dpp, NULL) == 0);
    set_timeout(_NTO_TIMEOUT_RECEIVE, 1000000);
    check(!dispatch_block(ctp) && errno == ETIMEDOUT);
    for (int turn = 0; turn < rounds / 10; turn++) {
        pthread_t first = start(block_in_context, ctp), second = start(block_in_context, other);
        if (turn % 2) usleep(200);
        dispatch_unblock(other);
        result_of(second);
        dispatch_unblock(ctp);
        result_of(first);
    }
    pthread_t blocked = start(block_for_error, ctp);
    int coid = message_connect(dpp, 0);
    check(coid > 0 && MsgSendPulse(coid, 10, 1, 7) == 0 && result_of(blocked) == 0 && dispatch_handler(ctp) == 0);
    check(got.value == 7 && ConnectDetach(coid) == 0);
    serve_one(ctp); /* the disconnect */
    blocked = start(block_for_error, ctp);
    for (int state = 0; state != STATE_RECEIVE; usleep(100)) {
        for (int tid = 1; tid <= 60 && state != STATE_RECEIVE; tid++) state = neutrino_state(tid);
    }
    check(dispatch_destroy(dpp) == 0 && result_of(blocked) == ESRCH);
    dispatch_context_free(ctp);
    dispatch_context_free(other);
    dispatch_context_free(NULL);
    dispatch_unblock(NULL);
}

/* A thread that is cancelled in dispatch_block leaves a context that can be used, and freed. */
void dispatch_cancelled(void) {
    dispatch_t *dpp = dispatch_create();
    void *result;
    check(pulse_attach(dpp, 0, 1, note_pulse, NULL) == 1);
    dispatch_context_t *ctp = dispatch_context_alloc(dpp);
    int coid = message_connect(dpp, 0);
    pthread_t blocked = start(block_for_error, ctp);
    usleep(2000);
    check(pthread_cancel(blocked) == 0 && pthread_join(blocked, &result) == 0 && result == PTHREAD_CANCELED);
    dispatch_unblock(ctp); /* no thread is in the context, so its next block ends */
    check(!dispatch_block(ctp) && errno == EINTR && MsgSendPulse(coid, 10, 1, 8) == 0);
    serve_one(ctp);
    check(got.value == 8 && ConnectDetach(coid) == 0);
    dispatch_context_free(ctp);
    check(dispatch_destroy(dpp) == 0);
}

static void attach_errors(dispatch_t *dpp) {
    message_attr_t wrong = {.flags = 0x100};
    fails(message_attach(NULL, NULL, 1, 1, note_message, NULL), EINVAL);
    fails(message_attach(dpp, NULL, 1, 1, NULL, NULL), EINVAL);
    fails(message_attach(dpp, NULL, -1, 1, note_message, NULL), EINVAL);
    fails(message_attach(dpp, NULL, 2, 1, note_message, NULL), EINVAL);
    fails(message_attach(dpp, NULL, 1, 0x10000, note_message, NULL), EINVAL);
    fails(message_attach(dpp, &wrong, 1, 1, note_message, NULL), EINVAL);
    check(message_attach(dpp, NULL, FIRST, LAST, note_message, NULL) == 0);
    fails(message_attach(dpp, NULL, LAST, LAST + 1, note_message, NULL), EINVAL);
    fails(message_attach(dpp, NULL, 0, 0xffff, note_message, NULL), EINVAL);
    fails(message_detach(dpp, FIRST, LAST - 1, 0), EINVAL);
    fails(message_detach(dpp, FIRST + 1, LAST, 0), EINVAL);
    fails(message_detach(dpp, 1, 1, 0), EINVAL);
    fails(message_detach(NULL, FIRST, LAST, 0), EINVAL);
    fails(pulse_attach(NULL, 0, 1, note_pulse, NULL), EINVAL);
    fails(pulse_attach(dpp, 0, 1, NULL, NULL), EINVAL);
    fails(pulse_attach(dpp, 0x100, 1, note_pulse, NULL), EINVAL);
    for (int code = 0; code <= _PULSE_CODE_MAXAVAIL; code++)
        check(pulse_attach(dpp, MSG_FLAG_ALLOC_PULSE, -64, note_pulse, NULL) == code);
    fails(pulse_attach(dpp, MSG_FLAG_ALLOC_PULSE, 0, note_pulse, NULL), EAGAIN);
    fails(pulse_attach(dpp, 0, 5, note_pulse, NULL), EINVAL);
    fails(pulse_detach(dpp, -9, 0), EINVAL);
    fails(pulse_detach(NULL, 1, 0), EINVAL);
}

/* A code is the program's, or one that the kernel has by name. */
static void attach_codes(void) {
    dispatch_t *dpp = dispatch_create();
    for (int code = -1000; code <= 1000; code++) {
        int is_code = code >= _PULSE_CODE_RESTART && code <= _PULSE_CODE_MAXAVAIL;
        int attached = code == _PULSE_CODE_UNBLOCK ? 0 : code; /* not -1, which is an error */
        errno = 0;
        check(pulse_attach(dpp, 0, code, note_pulse, NULL) == (is_code ? attached : -1));
        check(is_code ? pulse_detach(dpp, code, 0) == 0 : errno == EINVAL);
    }
    check(dispatch_destroy(dpp) == 0);
}

void dispatch_errors(void) {
    int all[64];
    check(!dispatch_create_channel(0, 0) && errno == EINVAL);
    check(!dispatch_create_channel(-2, 0) && errno == EINVAL);
    check(!dispatch_create_channel(1, 0x100) && errno == EINVAL);
    fails(dispatch_destroy(NULL), EINVAL);
    check(!dispatch_context_alloc(NULL) && errno == EINVAL && !dispatch_block(NULL) && errno == EINVAL);
    fails(dispatch_handler(NULL), EINVAL);
    dispatch_t *dpp = dispatch_create();
    check(!dispatch_context_alloc(dpp) && errno == EINVAL); /* nothing is attached */
    fails(message_connect(dpp, 0), EINVAL);
    fails(message_connect(NULL, 0), EINVAL);
    for (int at = 0; at < 64; at++) check((all[at] = ChannelCreate(0)) > 0);
    fails(pulse_attach(dpp, 0, 1, note_pulse, NULL), EAGAIN);
    fails(message_attach(dpp, NULL, 1, 1, note_message, NULL), EAGAIN);
    for (int at = 0; at < 64; at++) check(ChannelDestroy(all[at]) == 0);
    attach_errors(dpp);
    fails(message_connect(dpp, 0x100), EINVAL);
    dispatch_context_t *ctp = dispatch_context_alloc(dpp);
    fails(dispatch_handler(ctp), EINVAL); /* it has received nothing */
    dispatch_context_free(ctp);
    check(dispatch_destroy(dpp) == 0);
    attach_codes();
}
