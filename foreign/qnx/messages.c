/* Messages. Tested, not proved. */

/* AddressSanitizer, if the program has it, doesn't see by itself that a cancelled thread leaves its stack. */
__attribute__((weak)) void __asan_handle_no_return(void);

/* Ends the calling thread if it is cancelled. */
static void test_cancel(void) {
    if (__asan_handle_no_return) __asan_handle_no_return();
    pthread_testcancel();
}

/* Lets the calling thread make a call that is a cancellation point. */
static int enter_point(void) {
    if (enter()) return -1;
    test_cancel();
    return 0;
}

/* Ends the calling thread if a cancellation has ended its call. */
static void leave_point(long result) {
    if (result != -1 || errno != EINTR) return;
    test_cancel();
    errno = EINTR;
}

/* Sends a message, and sends it again each time the server replies with ERESTART. */
static long send_message(int coid, const void *smsg, size_t sbytes, void *rmsg, size_t rbytes) {
    long status;
    if (is_scoid(coid)) return fail(EBADF);
    do {
        status = layer_MsgSend(plain(coid), smsg, sbytes, rmsg, rbytes);
    } while (status == -1 && errno == ERESTART);
    return status;
}

/* Fills in the program's pid, and the coid as the program knows it. */
static void complete_info(struct _msg_info *info) {
    if (neutrino_remote()) return; /* the daemon has filled them in */
    int known = atomic_load(&connections[(unsigned)info->coid % CONNECTIONS].coid);
    info->pid = program;
    if (plain(known) != info->coid) {
        struct connection c = connection_as_is(info->coid);
        known = c.coid;
    }
    if (known) info->coid = known;
}

int MsgReply(rcvid_t rcvid, long status, const void *msg, size_t bytes) {
    return enter() ? -1 : layer_MsgReply(rcvid, status, msg, bytes);
}

int MsgError(rcvid_t rcvid, int error) { return enter() ? -1 : layer_MsgError(rcvid, error); }

ssize_t MsgRead(rcvid_t rcvid, void *msg, size_t bytes, size_t offset) {
    return enter() ? -1 : layer_MsgRead(rcvid, msg, bytes, offset);
}

ssize_t MsgWrite(rcvid_t rcvid, const void *msg, size_t bytes, size_t offset) {
    return enter() ? -1 : layer_MsgWrite(rcvid, msg, bytes, offset);
}

int MsgInfo(rcvid_t rcvid, struct _msg_info *info) {
    if (enter() || layer_MsgInfo(rcvid, info)) return -1;
    complete_info(info);
    return 0;
}

int MsgCurrent(rcvid_t rcvid) {
    struct _msg_info info;
    return MsgInfo(rcvid, &info);
}

int MsgPause(rcvid_t rcvid, unsigned cookie) {
    struct _msg_info info;
    (void)cookie;
    if (MsgInfo(rcvid, &info)) return -1;
    struct sched_param own = {.sched_priority = seats[seat].priority};
    return layer_SchedSet(0, 0, seats[seat].policy, &own);
}
