/* Sends and receives of parts, which are gathered into one buffer and scattered again. Tested, not proved.
 *
 * The buffers belong to the seat, so a cancelled thread leaves none allocated. While a thread uses them, its
 * signal handlers make no calls. */
enum side { SENT, ROOM };

/* Parts as one buffer: the only part, or the seat's buffer if there are several. A single buffer of the
 * caller has no parts. */
struct whole {
    const iov_t *parts;
    size_t count;
    void *bytes;
    size_t length;
};

static struct whole many(const iov_t *parts, size_t count) { return (struct whole){parts, count, NULL, 0}; }

static struct whole one(const void *bytes, size_t length) {
    return (struct whole){NULL, 0, (void *)(uintptr_t)bytes, length};
}

/* Adds up the lengths of the parts. Fails with EFAULT for a null part, and with EOVERFLOW if the sum is too
 * great. */
static int measure(struct whole *whole) {
    if (whole->count && !whole->parts) return fail(EFAULT);
    for (size_t at = 0; at < whole->count; at++) {
        const iov_t *part = &whole->parts[at];
        if (part->iov_len && !part->iov_base) return fail(EFAULT);
        if (whole->length + part->iov_len < whole->length) return fail(EOVERFLOW);
        whole->length += part->iov_len;
    }
    return 0;
}

/* Makes one buffer for the parts, with their bytes if copies is true. */
static int gather(struct whole *whole, enum side side, bool copies) {
    if (measure(whole)) return -1;
    if (whole->count == 1) whole->bytes = whole->parts[0].iov_base;
    if (whole->count <= 1 || !whole->length) return 0;
    struct seat *s = &seats[seat];
    if (s->longest[side] < whole->length) {
        char *grown = realloc(s->parts[side], whole->length);
        if (!grown) return fail(ENOMEM);
        s->parts[side] = grown;
        s->longest[side] = whole->length;
    }
    char *to = whole->bytes = s->parts[side];
    for (size_t at = 0; copies && at < whole->count; to += whole->parts[at++].iov_len) {
        if (whole->parts[at].iov_len) memcpy(to, whole->parts[at].iov_base, whole->parts[at].iov_len);
    }
    return 0;
}

/* Copies the first bytes of the buffer back to the parts, if there are several. */
static void scatter(const struct whole *whole, size_t length) {
    const char *from = whole->bytes;
    if (length > whole->length) length = whole->length;
    for (size_t at = 0; whole->count > 1 && at < whole->count && length; at++) {
        size_t part = whole->parts[at].iov_len < length ? whole->parts[at].iov_len : length;
        if (part) memcpy(whole->parts[at].iov_base, from, part);
        from += part;
        length -= part;
    }
}

static long send_parts(int coid, struct whole sent, struct whole room) {
    long status = -1;
    if (enter_point()) return -1;
    holding++;
    if (!gather(&sent, SENT, true) && !gather(&room, ROOM, true)) {
        status = send_message(coid, sent.bytes, sent.length, room.bytes, room.length);
        scatter(&room, room.length);
    }
    holding--;
    leave_point(status);
    return status;
}

/* Receives by one of the layer's two functions. Fills in info only for a message. */
static int receive_parts(int (*receive)(int chid, void *bytes, size_t length, struct _msg_info *info), int chid,
                         struct whole room, struct _msg_info *info) {
    struct _msg_info own;
    int rcvid = -1;
    if (enter_point()) return -1;
    holding++;
    if (!gather(&room, ROOM, false)) rcvid = receive(chid, room.bytes, room.length, &own);
    if (rcvid >= 0) scatter(&room, rcvid ? (size_t)own.msglen : sizeof(struct _pulse));
    holding--;
    if (rcvid > 0 && info) {
        *info = own;
        complete_info(info);
    }
    leave_point(rcvid);
    return rcvid;
}

/* A receive into one buffer or many parts, by one of the layer's functions. */
#define RECEIVE(type, name, R, room, receive) \
    type name(int chid, R rmsg, size_t rlength, struct _msg_info *info) { \
        return receive_parts(receive, chid, room(rmsg, rlength), info); \
    }
RECEIVE(rcvid_t, MsgReceive, void *, one, layer_MsgReceive)
RECEIVE(rcvid_t, MsgReceivev, const iov_t *, many, layer_MsgReceive)
RECEIVE(int, MsgReceivePulse, void *, one, layer_MsgReceivePulse)
RECEIVE(int, MsgReceivePulsev, const iov_t *, many, layer_MsgReceivePulse)

/* Begins a call with parts that doesn't wait. If this succeeds, end_parts has to follow. */
static int begin_parts(struct whole *whole, enum side side) {
    if (enter()) return -1;
    holding++;
    if (!gather(whole, side, side == SENT)) return 0;
    holding--;
    return -1;
}

static ssize_t end_parts(ssize_t result) {
    holding--;
    return result;
}

int MsgReplyv(rcvid_t rcvid, long status, const iov_t *riov, size_t rparts) {
    struct whole sent = many(riov, rparts);
    return begin_parts(&sent, SENT) ? -1 : (int)end_parts(layer_MsgReply(rcvid, status, sent.bytes, sent.length));
}

ssize_t MsgReadv(rcvid_t rcvid, const iov_t *riov, size_t rparts, size_t offset) {
    struct whole room = many(riov, rparts);
    if (begin_parts(&room, ROOM)) return -1;
    ssize_t came = layer_MsgRead(rcvid, room.bytes, room.length, offset);
    if (came > 0) scatter(&room, (size_t)came);
    return end_parts(came);
}

ssize_t MsgWritev(rcvid_t rcvid, const iov_t *iov, size_t parts, size_t offset) {
    struct whole sent = many(iov, parts);
    return begin_parts(&sent, SENT) ? -1 : end_parts(layer_MsgWrite(rcvid, sent.bytes, sent.length, offset));
}
