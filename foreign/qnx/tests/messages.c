/* Messages, with each of their errors. */
#include "tests.h"

void sends(void) {
    struct client client;
    char room[8];
    int chid = ChannelCreate(0), coid = attach(chid);
    begin_send(&client, coid);
    check(MsgReply(receive(chid), 77, "xy", 3) == 0);
    end_send(&client);
    check(client.status == 77 && strcmp(client.reply, "xy") == 0 && client.reply[3] == '.');
    begin_send(&client, coid);
    check(MsgError(receive(chid), ENOTTY) == 0);
    end_send(&client);
    check(client.status == -1 && client.error == ENOTTY);
    begin_send(&client, coid);
    check(MsgError_r(receive(chid), EOK) == 0);
    end_send(&client);
    check(client.status == 0);
    begin_send(&client, coid);
    check(ConnectDetach(coid) == 0);
    end_send(&client);
    check(client.error == EBADF);
    coid = attach(chid);
    begin_send(&client, coid);
    check(ChannelDestroy(chid) == 0);
    end_send(&client);
    check(client.error == ESRCH);
    fails(MsgSend(coid, "", 1, NULL, 0), EBADF);
    fails_r(MsgSend_r(coid, "", 1, NULL, 0), EBADF);
    check(ConnectDetach(coid) == 0);
    fails(MsgSend(coid, "", 1, NULL, 0), EBADF);
    fails(MsgSend(-1, "", 1, NULL, 0), EBADF);
    fails(MsgSend(0x40000001, "", 1, NULL, 0), EBADF); /* an scoid */
    fails(MsgSend(coid, NULL, 1, NULL, 0), EFAULT);
    fails(MsgSend(coid, NULL, 0, NULL, 8), EFAULT);
    fails(MsgSendnc(coid, room, 8, room, 8), EBADF);
    fails_r(MsgSendnc_r(coid, NULL, 1, NULL, 0), EFAULT);
}

void receives(void) {
    struct client client;
    struct _msg_info info;
    char room[16] = "...............";
    int chid = ChannelCreate(0), coid = attach(chid);
    fails(MsgReceive(-1, room, 8, NULL), ESRCH);
    fails(MsgReceive(chid + 1, room, 8, NULL), ESRCH);
    fails(MsgReceive(chid, NULL, 8, NULL), EFAULT);
    fails_r(MsgReceive_r(chid + 1, room, 8, NULL), ESRCH);
    begin_send(&client, coid);
    set_timeout(_NTO_TIMEOUT_RECEIVE, 0);
    fails(MsgReceivePulse(chid, room, 8, NULL), ETIMEDOUT); /* it doesn't take the message */
    int rcvid = MsgReceive(chid, room, 3, &info);
    check(rcvid > 0 && memcmp(room, "hel...", 6) == 0);
    check(info.pid == getpid() && info.coid == coid && info.chid == chid && info.tid == client.tid);
    check(info.msglen == 3 && info.srcmsglen == 6 && info.dstmsglen == 16 && info.priority == 10 && info.flags == 0);
    check(info.nd == ND_LOCAL_NODE && MsgReply(rcvid, 1, NULL, 0) == 0);
    end_send(&client);
    begin_send(&client, coid);
    rcvid = MsgReceive_r(chid, NULL, 0, NULL);
    check(rcvid > 0 && MsgReply(rcvid, -1, NULL, 0) == 0);
    end_send(&client);
    check(client.status == -1);
    check(ConnectDetach(coid) == 0 && ChannelDestroy(chid) == 0);
}

void replies(void) {
    struct client client;
    int chid = ChannelCreate(0), coid = attach(chid);
    fails(MsgReply(0, 0, NULL, 0), ESRCH);
    fails(MsgReply(-1, 0, NULL, 0), ESRCH);
    returns_r(MsgReply_r(12345, 0, NULL, 0), ESRCH);
    fails(MsgError(12345, EPERM), ESRCH);
    returns_r(MsgError_r(12345, EPERM), ESRCH);
    begin_send(&client, coid);
    int rcvid = receive(chid);
    fails(MsgReply(rcvid, 0, NULL, 8), EFAULT);
    returns_r(MsgReply_r(rcvid, 4, "0123456789abcdefghi", 20), EOK);
    end_send(&client);
    check(client.status == 4 && memcmp(client.reply, "0123456789abcdef", 16) == 0);
    fails(MsgReply(rcvid, 0, NULL, 0), ESRCH);
    fails(MsgError(rcvid, EPERM), ESRCH);
    check(ConnectDetach(coid) == 0 && ChannelDestroy(chid) == 0);
}

void reads(void) {
    struct client client;
    char room[8] = ".......";
    int chid = ChannelCreate(0), coid = attach(chid);
    begin_send(&client, coid);
    int rcvid = receive(chid);
    check(MsgRead(rcvid, room, 8, 2) == 4 && memcmp(room, "llo\0...", 7) == 0);
    check(MsgRead(rcvid, room, 8, 6) == 0 && MsgRead(rcvid, room, 8, SIZE_MAX) == 0);
    check(MsgRead_r(rcvid, room, 2, 0) == 2);
    fails(MsgRead(rcvid, NULL, 8, 0), EFAULT);
    fails(MsgWrite(rcvid, NULL, 8, 0), EFAULT);
    check(MsgWrite(rcvid, "abc", 3, 14) == 2 && MsgWrite(rcvid, "abc", 3, 16) == 0);
    check(MsgWrite_r(rcvid, "de", 2, 3) == 2 && MsgReply(rcvid, 0, "f", 1) == 0);
    end_send(&client);
    check(memcmp(client.reply, "f..de.........ab", 16) == 0);
    fails(MsgRead(rcvid, room, 8, 0), ESRCH);
    fails(MsgWrite(rcvid, room, 8, 0), ESRCH);
    fails_r(MsgRead_r(rcvid, room, 8, 0), ESRCH);
    fails_r(MsgWrite_r(rcvid, room, 8, 0), ESRCH);
    check(ConnectDetach(coid) == 0 && ChannelDestroy(chid) == 0);
}

void infos(void) {
    struct client client;
    struct _msg_info info;
    int chid = ChannelCreate(_NTO_CHF_UNBLOCK), coid = attach(chid);
    begin_send(&client, coid);
    int rcvid = receive(chid);
    check(MsgInfo(rcvid, &info) == 0 && info.coid == coid && info.pid == getpid() && info.flags == 0);
    check(neutrino_unblock(client.tid) == 0 && MsgInfo_r(rcvid, &info) == 0 && info.flags == _NTO_MI_UNBLOCK_REQ);
    fails(MsgInfo(rcvid, NULL), EFAULT);
    check(MsgCurrent(rcvid) == 0);
    returns_r(MsgCurrent_r(rcvid), EOK);
    check(MsgReply(rcvid, 0, NULL, 0) == 0);
    end_send(&client);
    fails(MsgInfo(rcvid, &info), ESRCH);
    returns_r(MsgInfo_r(rcvid, &info), ESRCH);
    fails(MsgCurrent(rcvid), ESRCH);
    returns_r(MsgCurrent_r(-1), ESRCH);
    begin_send(&client, coid);
    struct _pulse pulse;
    check(MsgReceivePulse(chid, &pulse, sizeof pulse, NULL) == 0 && pulse.code == _PULSE_CODE_UNBLOCK);
    rcvid = receive(chid);
    check(MsgInfo(rcvid, &info) == 0 && info.flags == 0); /* this is another message */
    check(MsgReply(rcvid, 0, NULL, 0) == 0);
    end_send(&client);
    check(ConnectDetach(coid) == 0 && ChannelDestroy(chid) == 0);
}

/* The client's message is sent again each time the server replies with ERESTART. */
void restarts(void) {
    struct client client;
    int chid = ChannelCreate(0), coid = attach(chid);
    begin_send(&client, coid);
    for (int turn = 0; turn < 3; turn++) check(MsgError(receive(chid), ERESTART) == 0);
    check(MsgReply(receive(chid), 5, NULL, 0) == 0);
    end_send(&client);
    check(client.status == 5);
    check(ConnectDetach(coid) == 0 && ChannelDestroy(chid) == 0);
}

void keys(void) {
    struct client client;
    uint32_t made = 0, again = 0, other = 0;
    char first[] = "one", second[] = "two";
    iov_t iov[2], wrong;
    int chid = ChannelCreate(0), coid = attach(chid);
    SETIOV(iov, first, 3);
    SETIOV(iov + 1, second, 3);
    SETIOV(&wrong, NULL, 3);
    begin_send(&client, coid);
    int rcvid = receive(chid);
    check(MsgKeyData(rcvid, _NTO_KEYDATA_CALCULATE, 5, &made, iov, 2) == 0);
    check(MsgKeyData_r(rcvid, _NTO_KEYDATA_CALCULATE, 5, &again, iov, 2) == 0 && again == made);
    check(MsgKeyData(rcvid, _NTO_KEYDATA_CALCULATE, 6, &other, iov, 2) == 0 && other != made);
    check(MsgKeyData(rcvid, _NTO_KEYDATA_VERIFY, 5, &made, iov, 2) == 0);
    check(MsgKeyData(rcvid, _NTO_KEYDATA_VERIFY, 6, &made, iov, 2) == 1);
    check(MsgKeyData(rcvid, _NTO_KEYDATA_VERIFY, 5, &other, iov, 2) == 1);
    second[1] = 'W';
    check(MsgKeyData(rcvid, _NTO_KEYDATA_VERIFY, 5, &made, iov, 2) == 1);
    fails(MsgKeyData(rcvid, 7, 5, &made, iov, 2), EINVAL);
    fails(MsgKeyData(rcvid, _NTO_KEYDATA_VERIFY, 5, NULL, iov, 2), EFAULT);
    fails(MsgKeyData(rcvid, _NTO_KEYDATA_VERIFY, 5, &made, NULL, 2), EFAULT);
    fails(MsgKeyData(rcvid, _NTO_KEYDATA_VERIFY, 5, &made, &wrong, 1), EFAULT);
    check(MsgReply(rcvid, 0, NULL, 0) == 0);
    end_send(&client);
    fails(MsgKeyData(rcvid, _NTO_KEYDATA_VERIFY, 5, &made, iov, 2), ESRCH);
    fails_r(MsgKeyData_r(rcvid, _NTO_KEYDATA_VERIFY, 5, &made, iov, 2), ESRCH);
    check(ConnectDetach(coid) == 0 && ChannelDestroy(chid) == 0);
}
