/* Servers that clients find by name, with each of the errors. */
#include "tests.h"

static int chid_of_names, answer_of_names;

static void *greet(void *argument) {
    union {
        struct _pulse hdr;
        struct _io_connect connect;
    } message;
    struct _msg_info info;
    int rcvid = MsgReceive(chid_of_names, &message, sizeof message, &info);
    check(rcvid > 0 && message.hdr.type == _IO_CONNECT && message.hdr.subtype == _IO_CONNECT_OPEN);
    check(info.srcmsglen == sizeof message.connect && message.connect.path_len == 1 && !*message.connect.path);
    if (answer_of_names) check(MsgError(rcvid, answer_of_names) == 0);
    else check(MsgReply(rcvid, EOK, NULL, 0) == 0);
    return argument;
}

static void wrong_names(const char *right) {
    char longest[300];
    memset(longest, 'x', sizeof longest);
    longest[256] = 0;
    check(!name_attach(NULL, NULL, 0) && errno == EINVAL);
    check(!name_attach(NULL, "", 0) && errno == EINVAL);
    check(!name_attach(NULL, "/x", 0) && errno == EINVAL);
    check(!name_attach(NULL, "a/../b", 0) && errno == EINVAL);
    check(!name_attach(NULL, longest, 0) && errno == ENAMETOOLONG);
    check(!name_attach(NULL, right, 0) && errno == EEXIST);
    fails(name_open(NULL, 0), EINVAL);
    fails(name_open("", 0), EINVAL);
    fails(name_open("nobody", 0), ENOENT);
    fails(name_close(-1), EINVAL);
    fails(name_detach(NULL, 0), EINVAL);
}

static void many_names(void) {
    name_attach_t *all[64];
    int count = 0;
    char name[16];
    for (; count < 64; count++) {
        snprintf(name, sizeof name, "name%d", count);
        if (!(all[count] = name_attach(NULL, name, 0))) break;
    }
    check(count == 63 && errno == EBUSY); /* one name is already attached, and there are no more channels */
    for (int at = 0; at < count; at++) check(name_detach(all[at], 0) == 0);
}

void names(void) {
    struct _pulse pulse;
    name_attach_t *attach = name_attach(NULL, "disk/1", NAME_FLAG_ATTACH_GLOBAL), gone;
    check(attach && attach->chid > 0 && attach->dpp);
    chid_of_names = attach->chid;
    wrong_names("disk/1");
    many_names();
    pthread_t server = start(greet, NULL);
    int coid = name_open("disk/1", NAME_FLAG_ATTACH_GLOBAL);
    check(coid > 0 && !(coid & _NTO_SIDE_CHANNEL));
    result_of(server);
    answer_of_names = EACCES;
    server = start(greet, NULL);
    fails(name_open("disk/1", 0), EACCES);
    result_of(server);
    answer_of_names = 0;
    check(MsgSendPulse(coid, 1, 2, 3) == 0 && MsgReceivePulse(chid_of_names, &pulse, sizeof pulse, NULL) == 0);
    check(name_close(coid) == 0);
    check(MsgReceivePulse(chid_of_names, &pulse, sizeof pulse, NULL) == 0 && pulse.code == _PULSE_CODE_DISCONNECT);
    gone = *attach;
    check(name_detach(attach, 0) == 0);
    fails(name_detach(&gone, 0), EINVAL);
    fails(name_open("disk/1", 0), ENOENT);
    fails(MsgReceivePulse(chid_of_names, &pulse, sizeof pulse, NULL), ESRCH);
}
