/* Messages of several parts, and the forms in nc. */
#include "tests.h"

enum { LONGEST = 3000, MOST = 7 };

/* Cuts a buffer into parts. Some parts may be empty. */
static size_t cut(iov_t *parts, char *bytes, size_t length, unsigned *seed) {
    size_t count = (size_t)rand_r(seed) % MOST, done = 0;
    for (size_t at = 0; at < count; at++) {
        size_t part = at + 1 == count ? length - done : (size_t)rand_r(seed) % (length - done + 1);
        SETIOV(parts + at, bytes + done, part);
        done += part;
    }
    if (count) return count;
    SETIOV(parts, bytes, length);
    return 1;
}

static int chid;

/* Receives, reads the rest, writes and replies, each with parts. */
static void *serve(void *argument) {
    static char message[LONGEST], answer[LONGEST];
    unsigned seed = 7;
    iov_t parts[MOST];
    struct _msg_info info;
    for (int round = 0; round < rounds; round++) {
        memset(message, 0, sizeof message);
        size_t room = (size_t)rand_r(&seed) % LONGEST, count = cut(parts, message, room, &seed);
        int rcvid = round % 2 ? MsgReceivev(chid, parts, count, &info) : MsgReceivev_r(chid, parts, count, &info);
        check(rcvid > 0 && (size_t)info.msglen == (room < (size_t)info.srcmsglen ? room : (size_t)info.srcmsglen));
        size_t whole = (size_t)info.srcmsglen, came = (size_t)info.msglen;
        count = cut(parts, message + came, LONGEST - came, &seed);
        ssize_t more = round % 2 ? MsgReadv(rcvid, parts, count, came) : MsgReadv_r(rcvid, parts, count, came);
        check((size_t)more == whole - came);
        for (size_t at = 0; at < whole; at++) answer[at] = (char)(message[at] ^ 0x55);
        size_t half = whole / 2;
        count = cut(parts, answer + half, whole - half, &seed);
        check(MsgWritev(rcvid, parts, count, half) == (ssize_t)(whole - half));
        check(MsgWritev_r(rcvid, parts, 0, half) == 0);
        count = cut(parts, answer, half, &seed);
        check((round % 2 ? MsgReplyv(rcvid, round, parts, count) : MsgReplyv_r(rcvid, round, parts, count)) == 0);
    }
    return argument;
}

static long send_round(int coid, int round, struct iovec *s, size_t sn, struct iovec *r, size_t rn) {
    switch (round % 4) {
    case 0:
        return MsgSendv(coid, s, sn, r, rn);
    case 1:
        return MsgSendv_r(coid, s, sn, r, rn);
    case 2:
        return MsgSendvnc(coid, s, sn, r, rn);
    default:
        return MsgSendvnc_r(coid, s, sn, r, rn);
    }
}

static long send_one_side(int coid, int round, struct iovec *parts, size_t count, struct iovec *whole) {
    void *bytes = whole->iov_base;
    size_t length = whole->iov_len;
    switch (round % 8) {
    case 0:
        return MsgSendsv(coid, bytes, length, parts, count);
    case 1:
        return MsgSendsv_r(coid, bytes, length, parts, count);
    case 2:
        return MsgSendsvnc(coid, bytes, length, parts, count);
    case 3:
        return MsgSendsvnc_r(coid, bytes, length, parts, count);
    case 4:
        return MsgSendvs(coid, parts, count, bytes, length);
    case 5:
        return MsgSendvs_r(coid, parts, count, bytes, length);
    case 6:
        return MsgSendvsnc(coid, parts, count, bytes, length);
    default:
        return MsgSendvsnc_r(coid, parts, count, bytes, length);
    }
}

void vectors(void) {
    static char sent[LONGEST], back[LONGEST];
    unsigned seed = 3;
    iov_t s[MOST], r[MOST], whole;
    chid = ChannelCreate(0);
    int coid = attach(chid);
    pthread_t server = start(serve, NULL);
    for (int round = 0; round < rounds; round++) {
        size_t length = (size_t)rand_r(&seed) % LONGEST;
        for (size_t at = 0; at < length; at++) sent[at] = (char)rand_r(&seed);
        memset(back, '-', sizeof back);
        long status;
        size_t sn = cut(s, sent, length, &seed), rn = cut(r, back, LONGEST, &seed);
        if (round / 8 % 2) {
            status = send_round(coid, round, s, sn, r, rn);
        } else if (round % 8 < 4) {
            SETIOV(&whole, sent, length);
            status = send_one_side(coid, round, r, rn, &whole);
        } else {
            SETIOV(&whole, back, LONGEST);
            status = send_one_side(coid, round, s, sn, &whole);
        }
        check(status == round);
        for (size_t at = 0; at < LONGEST; at++) check(back[at] == (at < length ? (char)(sent[at] ^ 0x55) : '-'));
    }
    result_of(server);
    check(ConnectDetach(coid) == 0 && ChannelDestroy(chid) == 0);
}

void wrong_parts(void) {
    char room[8];
    iov_t null = {NULL, 4}, right = {room, 8}, nulls[2] = {{room, 4}, {NULL, 4}};
    iov_t huge[2] = {{room, SIZE_MAX}, {room, 2}}, large[2] = {{room, SSIZE_MAX}, {room, 1}};
    int own = ChannelCreate(0), coid = attach(own);
    fails(MsgSendv(coid, NULL, 1, NULL, 0), EFAULT);
    fails(MsgSendv(coid, &null, 1, NULL, 0), EFAULT);
    fails(MsgSendv(coid, NULL, 0, &null, 1), EFAULT);
    fails(MsgSendv(coid, nulls, 2, NULL, 0), EFAULT);
    fails(MsgReplyv(99, 0, nulls, 2), EFAULT);
    fails(MsgSendv(coid, huge, 2, NULL, 0), EOVERFLOW);
    fails(MsgSendv(coid, NULL, 0, large, 2), ENOMEM);
    fails(MsgSendv(-1, NULL, 0, NULL, 0), EBADF);
    fails(MsgSendv(0x40000001, NULL, 0, NULL, 0), EBADF);
    fails(MsgSendvs(-1, &right, 1, room, 8), EBADF);
    fails(MsgSendsv(-1, room, 8, &right, 1), EBADF);
    fails(MsgReceivev(own, &null, 1, NULL), EFAULT);
    fails(MsgReceivev(own, large, 2, NULL), ENOMEM);
    fails(MsgReceivev(-1, &right, 1, NULL), ESRCH);
    fails_r(MsgReceivev_r(-1, &right, 1, NULL), ESRCH);
    fails(MsgReceivePulsev(own, &null, 1, NULL), EFAULT);
    fails(MsgReceivePulsev(-1, &right, 1, NULL), ESRCH);
    returns_r(MsgReceivePulsev_r(-1, &right, 1, NULL), ESRCH);
    fails(MsgReplyv(99, 0, &null, 1), EFAULT);
    fails(MsgReplyv(99, 0, &right, 1), ESRCH);
    returns_r(MsgReplyv_r(99, 0, &right, 1), ESRCH);
    fails(MsgReadv(99, &null, 1, 0), EFAULT);
    fails(MsgReadv(99, &right, 1, 0), ESRCH);
    fails_r(MsgReadv_r(99, &right, 1, 0), ESRCH);
    fails(MsgWritev(99, &null, 1, 0), EFAULT);
    fails(MsgWritev(99, &right, 1, 0), ESRCH);
    fails_r(MsgWritev_r(99, &right, 1, 0), ESRCH);
    fails_r(MsgSendv_r(-1, &right, 1, &right, 1), EBADF);
    fails_r(MsgSendvnc_r(-1, &right, 1, &right, 1), EBADF);
    check(ConnectDetach(coid) == 0 && ChannelDestroy(own) == 0);
}

static void *send_all_nc(void *argument) {
    char room[8];
    iov_t part = {room, 8};
    int coid = *(int *)argument;
    check(pthread_cancel(pthread_self()) == 0);
    check(MsgSendnc(coid, "1", 2, room, 8) == 1 && MsgSendvnc(coid, &part, 1, &part, 1) == 2);
    check(MsgSendsvnc(coid, "1", 2, &part, 1) == 3 && MsgSendvsnc(coid, &part, 1, room, 8) == 4);
    *(int *)argument = 0;
    MsgSendv(coid, &part, 1, &part, 1); /* is a cancellation point */
    *(int *)argument = -1;
    return NULL;
}

void not_cancelled(void) {
    int own = ChannelCreate(0), coid = attach(own), sent = coid;
    pthread_t thread = start(send_all_nc, &sent);
    for (int status = 1; status <= 4; status++) {
        usleep(1000);
        check(MsgReply(receive(own), status, NULL, 0) == 0);
    }
    check(result_of(thread) == (long)PTHREAD_CANCELED && sent == 0);
    check(ConnectDetach(coid) == 0 && ChannelDestroy(own) == 0);
}
