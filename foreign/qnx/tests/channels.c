/* Channels and connections, with each of their errors. */
#include "tests.h"

#include <grp.h>
#include <sys/netmgr.h>

void channels(void) {
    char room[8];
    fails(ChannelCreate(0x40000000u), EINVAL);
    fails_r(ChannelCreate_r(8), EINVAL);
    unsigned all = _NTO_CHF_FIXED_PRIORITY | _NTO_CHF_UNBLOCK | _NTO_CHF_DISCONNECT | _NTO_CHF_SENDER_LEN |
                   _NTO_CHF_REPLY_LEN | _NTO_CHF_PRIVATE | _NTO_CHF_GLOBAL | _NTO_CHF_INHERIT_RUNMASK |
                   _NTO_CHF_NOT_MERGEABLE | _NTO_CHF_THREAD_DEATH | _NTO_CHF_COID_DISCONNECT;
    int chid = ChannelCreate(all), second = ChannelCreate_r(0);
    check(chid > 0 && second > 0 && second != chid);
    check(ChannelDestroy(chid) == 0);
    fails(ChannelDestroy(chid), EINVAL);
    returns_r(ChannelDestroy_r(chid), EINVAL);
    fails(ChannelDestroy(-1), EINVAL);
    fails(MsgReceive(chid, room, sizeof room, NULL), ESRCH);
    returns_r(ChannelDestroy_r(second), EOK);
}

void connections(void) {
    int chid = ChannelCreate(0);
    fails(ConnectAttach(1, 0, chid, 0, 0), ESRCH);
    fails(ConnectAttach(0, getpid() + 1, chid, 0, 0), ESRCH);
    fails(ConnectAttach(0, -1, chid, 0, 0), ESRCH);
    fails(ConnectAttach(0, 0, chid + 1, 0, 0), ESRCH);
    fails_r(ConnectAttach_r(0, 0, -1, 0, 0), ESRCH);
    int coid = ConnectAttach(0, getpid(), chid, _NTO_SIDE_CHANNEL, 0), plain = ConnectAttach_r(0, 0, chid, 0, 0);
    check(coid > 0 && coid & _NTO_SIDE_CHANNEL && plain > 0 && !(plain & _NTO_SIDE_CHANNEL));
    check(MsgSendPulse(coid, -1, 1, 1) == 0 && MsgSendPulse(plain, -1, 1, 2) == 0);
    check(ConnectDetach(coid) == 0);
    fails(ConnectDetach(coid), EINVAL);
    fails(MsgSendPulse(coid, -1, 1, 1), EBADF);
    returns_r(ConnectDetach_r(coid), EINVAL);
    fails(ConnectDetach(-1), EINVAL);
    fails(ConnectDetach(0), EINVAL);
    check(ConnectDetach(0x40000001) == 0); /* an scoid */
    returns_r(ConnectDetach_r(plain), EOK);
    check(ChannelDestroy(chid) == 0);
}

void flags(void) {
    int chid = ChannelCreate(0), coid = ConnectAttach(0, 0, chid, _NTO_SIDE_CHANNEL, _NTO_COF_CLOEXEC);
    check(ConnectFlags(0, coid, 0, 0) == _NTO_COF_CLOEXEC);
    check(ConnectFlags(getpid(), coid, ~0u, _NTO_COF_NOSHARE) == _NTO_COF_CLOEXEC);
    check(ConnectFlags(0, coid, _NTO_COF_CLOEXEC, ~0u) == _NTO_COF_NOSHARE);
    check(ConnectFlags_r(0, coid, 0, ~0u) == (_NTO_COF_NOSHARE | _NTO_COF_CLOEXEC));
    fails(ConnectFlags(getpid() + 1, coid, 0, 0), ESRCH);
    fails(ConnectFlags(0, coid + 1, 0, 0), EBADF);
    fails_r(ConnectFlags_r(0, -1, 0, 0), EBADF);
    check(ConnectDetach(coid) == 0 && ChannelDestroy(chid) == 0);
    fails(ConnectFlags(0, coid, 0, 0), EBADF);
}

static void check_client(int scoid) {
    struct _client_info info;
    gid_t groups[64] = {0, 1, 2, 3, 4, 5, 6, 7, 8, 9, 10, 11};
    if (geteuid() == 0) check(setgroups(12, groups) == 0);
    check(ConnectClientInfo(scoid, &info, __NGROUPS_MAX) == 0);
    check(info.pid == getpid() && info.sid == getsid(0) && info.nd == ND_LOCAL_NODE && info.cred.euid == geteuid());
    check(info.cred.ruid == getuid() && info.cred.egid == getegid() && info.cred.rgid == getgid());
    int count = getgroups(64, groups);
    check((int)info.cred.ngroups == (count < __NGROUPS_MAX ? count : __NGROUPS_MAX));
    check(count <= 0 || info.cred.grouplist[0] == groups[0]);
    check(ConnectClientInfo(scoid, &info, 0) == 0 && info.cred.ngroups == 0);
    fails(ConnectClientInfo(scoid + 1, &info, 0), EINVAL);
    fails(ConnectClientInfo(0, &info, 0), EINVAL);
    fails(ConnectClientInfo(scoid, NULL, 0), EFAULT);
    returns_r(ConnectClientInfo_r(0, &info, 0), EINVAL);
}

void peers(void) {
    int chid = ChannelCreate(0), coid = attach(chid), second = attach(chid), low = ConnectAttach(0, 0, chid, 0, 0);
    struct _server_info info;
    struct _msg_info message;
    struct client client;
    char room[8];
    check(ConnectServerInfo(0, coid, &info) == coid && info.coid == coid && info.chid == chid);
    check(info.pid == getpid() && info.nd == ND_LOCAL_NODE && info.scoid > 0);
    check(netmgr_remote_nd(5, ND_LOCAL_NODE) == ND_LOCAL_NODE && ND_NODE_CMP(0, 1) < 0 && ND_NODE_CMP(1, 1) == 0);
    check(ConnectServerInfo(getpid(), 0, &info) == low && info.coid == low);
    check(ConnectServerInfo(0, low + 1, &info) == (coid < second ? coid : second));
    fails(ConnectServerInfo(0, (coid > second ? coid : second) + 1, &info), EINVAL);
    fails(ConnectServerInfo(getpid() + 1, coid, &info), ESRCH);
    fails(ConnectServerInfo(0, coid, NULL), EFAULT);
    fails_r(ConnectServerInfo_r(0, INT_MAX, &info), EINVAL);
    begin_send(&client, second);
    int rcvid = MsgReceive(chid, room, sizeof room, &message);
    check(rcvid > 0 && message.scoid == info.scoid && message.coid == second && message.pid == getpid());
    check_client(message.scoid);
    check(MsgReply(rcvid, 0, NULL, 0) == 0);
    end_send(&client);
    check(ChannelDestroy(chid) == 0); /* its connections stay attached */
    check(ConnectServerInfo(0, coid, &info) == coid);
    check(ConnectDetach(coid) == 0 && ConnectDetach(second) == 0 && ConnectDetach(low) == 0);
    fails(ConnectServerInfo(0, coid, &info), EINVAL);
}

void limits(void) {
    static int chids[64], coids[1024];
    for (int turn = 0; turn < 3; turn++) {
        for (int at = 0; at < 64; at++) check((chids[at] = ChannelCreate(at % 2 ? _NTO_CHF_THREAD_DEATH : 0)) > 0);
        fails(ChannelCreate(0), EAGAIN);
        fails(ChannelCreate(_NTO_CHF_THREAD_DEATH), EAGAIN);
        for (int at = 0; at < 64; at++) check(ChannelDestroy(chids[at]) == 0);
    }
    int chid = ChannelCreate(0);
    for (int turn = 0; turn < 2; turn++) {
        for (int at = 0; at < 1024; at++) check((coids[at] = attach(chid)) > 0);
        fails(ConnectAttach(0, 0, chid, 0, 0), EAGAIN);
        fails(ChannelCreate(_NTO_CHF_THREAD_DEATH), EAGAIN); /* it needs a connection */
        for (int at = 0; at < 1024; at++) {
            struct _server_info info;
            check(ConnectServerInfo(0, coids[at], &info) == coids[at] && ConnectDetach(coids[at]) == 0);
        }
        /* No channel is left of the calls that were refused. */
        for (int at = 1; at < 64; at++) check((chids[at] = ChannelCreate(0)) > 0);
        for (int at = 1; at < 64; at++) check(ChannelDestroy(chids[at]) == 0);
    }
    check(ChannelDestroy(chid) == 0);
}

/* A last detach whose pulse the kernel refuses changes nothing. */
void disconnects(void) {
    struct _pulse pulse;
    struct _server_info info;
    int chid = ChannelCreate(_NTO_CHF_DISCONNECT), first = attach(chid), coid = attach(chid);
    check(ConnectDetach(first) == 0);
    for (int at = 0; at < 1024; at++) check(MsgSendPulse(coid, 1, 1, at) == 0);
    fails(MsgSendPulse(coid, 1, 1, 0), EAGAIN);
    returns_r(MsgSendPulse_r(coid, 1, -1, 0), EAGAIN);
    fails(ConnectDetach(coid), EAGAIN);
    check(ConnectServerInfo(0, coid, &info) == coid && info.chid == chid);
    check(MsgReceivePulse(chid, &pulse, sizeof pulse, NULL) == 0 && pulse.value.sival_int == 0);
    check(ConnectDetach(coid) == 0);
    for (int at = 1; at <= 1024; at++) {
        check(MsgReceivePulse(chid, &pulse, sizeof pulse, NULL) == 0);
        if (pulse.code == _PULSE_CODE_DISCONNECT) break;
    }
    check(pulse.code == _PULSE_CODE_DISCONNECT && pulse.scoid > 0 && ConnectDetach(pulse.scoid) == 0);
    check(ChannelDestroy(chid) == 0);
}

static void *destroy(void *chid) {
    check(ChannelDestroy(*(int *)chid) == 0);
    return NULL;
}

/* If there is room for a channel, there is room for a channel that gets pulses about ends, also during a
 * ChannelDestroy. */
void at_the_limit(void) {
    enum { ALL = 64, TOLD = _NTO_CHF_COID_DISCONNECT };
    int chids[ALL], chid;
    for (int at = 0; at < ALL; at++) check((chids[at] = ChannelCreate(TOLD)) > 0);
    for (int turn = 0; turn < 20 + rounds / 10; turn++) {
        pthread_t other = start(destroy, &chids[turn % ALL]);
        while ((chid = ChannelCreate(0)) == -1) check(errno == EAGAIN);
        check(ChannelDestroy(chid) == 0 && (chid = ChannelCreate(TOLD)) > 0 && result_of(other) == 0);
        chids[turn % ALL] = chid;
    }
    for (int at = 0; at < ALL; at++) check(ChannelDestroy(chids[at]) == 0);
}
