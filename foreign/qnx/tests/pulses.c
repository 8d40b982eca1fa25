/* Pulses, with each of their errors. */
#include "tests.h"

static struct _pulse next(int chid) {
    struct _pulse pulse;
    memset(&pulse, 9, sizeof pulse);
    check(MsgReceivePulse(chid, &pulse, sizeof pulse, NULL) == 0 && pulse.type == _PULSE_TYPE && pulse.scoid > 0);
    return pulse;
}

void codes(void) {
    int chid = ChannelCreate(0), coid = attach(chid);
    for (int code = -128; code <= 127; code++) {
        check(MsgSendPulse(coid, 1 + (code & 63), code, code * 3) == 0);
        struct _pulse pulse = next(chid);
        check(pulse.code == code && pulse.value.sival_int == code * 3 && ConnectDetach(pulse.scoid) == 0);
    }
    check(ConnectDetach(coid) == 0 && ChannelDestroy(chid) == 0);
}

void values(void) {
    static const intptr_t all[] = {0,
                                   1,
                                   -1,
                                   INT_MAX,
                                   INT_MIN,
                                   (intptr_t)INT_MAX + 1,
                                   (intptr_t)INT_MIN - 1,
                                   INTPTR_MAX,
                                   INTPTR_MIN,
                                   0x123456789abc};
    int chid = ChannelCreate(0), coid = attach(chid);
    for (size_t at = 0; at < sizeof all / sizeof *all; at++) {
        for (int code = -2; code < 128; code += 43) {
            check(MsgSendPulsePtr(coid, -1, code, (void *)all[at]) == 0);
            struct _pulse pulse = next(chid);
            check((intptr_t)pulse.value.sival_ptr == all[at] && pulse.value.sival_int == (int)all[at]);
            check(pulse.code == code);
        }
    }
    check(ConnectDetach(coid) == 0 && ChannelDestroy(chid) == 0);
}

/* The notes of a destroyed channel's pulses are free again. */
void notes(void) {
    for (int turn = 0; turn < 3; turn++) {
        int chids[4], coids[4], spare = ChannelCreate(0), over = attach(spare);
        for (int at = 0; at < 4; at++) {
            chids[at] = ChannelCreate(0);
            coids[at] = attach(chids[at]);
            for (int sent = 0; sent < 1024; sent++) check(MsgSendPulse(coids[at], 1, -5, sent) == 0);
            fails(MsgSendPulse(coids[at], 1, -5, 0), EAGAIN);
        }
        fails(MsgSendPulse(over, 1, -5, 0), EAGAIN); /* there are 4,096 notes */
        check(MsgSendPulse(over, 1, 5, 0) == 0);
        for (int sent = 0; sent < 1024; sent++) check(next(chids[0]).value.sival_int == sent);
        check(MsgSendPulse(over, 1, -5, 0) == 0);
        for (int at = 0; at < 4; at++) check(ConnectDetach(coids[at]) == 0 && ChannelDestroy(chids[at]) == 0);
        check(ConnectDetach(over) == 0 && ChannelDestroy(spare) == 0);
    }
}

/* The turns of notes begin again after 524,286 turns. */
void many_notes(void) {
    int chid = ChannelCreate(0), coid = attach(chid);
    for (int sent = 0; sent < 530000; sent++) {
        check(MsgSendPulse(coid, 1, -5, sent) == 0);
        struct _pulse pulse = next(chid);
        check(pulse.code == -5 && pulse.value.sival_int == sent);
    }
    check(ConnectDetach(coid) == 0 && ChannelDestroy(chid) == 0);
}

void pulse_errors(void) {
    int chid = ChannelCreate(0), coid = attach(chid);
    fails(MsgSendPulse(coid, 0, 1, 0), EINVAL);
    fails(MsgSendPulse(coid, 256, 1, 0), EINVAL);
    fails(MsgSendPulse(coid, -2, 1, 0), EINVAL);
    fails(MsgSendPulse(coid, 1, 128, 0), EINVAL);
    fails(MsgSendPulse(coid, 1, -129, 0), EINVAL);
    fails(MsgSendPulse(coid + 1, 1, 1, 0), EBADF);
    fails(MsgSendPulse(coid + 1, 1, -1, 0), EBADF);
    fails(MsgSendPulsePtr(-1, 1, 1, NULL), EBADF);
    returns_r(MsgSendPulse_r(-1, 1, 1, 0), EBADF);
    returns_r(MsgSendPulsePtr_r(coid, 0, 1, NULL), EINVAL);
    returns_r(MsgSendPulsePtr_r(coid, 1, 1, NULL), EOK);
    check(ChannelDestroy(chid) == 0);
    fails(MsgSendPulse(coid, 1, 1, 0), EBADF);
    fails(MsgSendPulse(coid, 1, -1, 0), EBADF);
    check(ConnectDetach(coid) == 0);
}

void pulses_received(void) {
    struct _pulse pulse;
    char room[8];
    iov_t parts[2] = {{&pulse, 4}, {(char *)&pulse + 4, sizeof pulse - 4}};
    int chid = ChannelCreate(0), coid = attach(chid);
    fails(MsgReceivePulse(-1, &pulse, sizeof pulse, NULL), ESRCH);
    fails(MsgReceivePulse(chid, NULL, sizeof pulse, NULL), EFAULT);
    returns_r(MsgReceivePulse_r(-1, &pulse, sizeof pulse, NULL), ESRCH);
    check(setprio(0, 31) > 0 && MsgSendPulse(coid, SIGEV_PULSE_PRIO_INHERIT, -7, 8) == 0);
    check(MsgSendPulse(coid, 30, 6, 1) == 0 && MsgSendPulse(coid, 32, 6, 2) == 0);
    check(MsgReceive(chid, &pulse, sizeof pulse, NULL) == 0 && pulse.value.sival_int == 2 && getprio(0) == 32);
    check(MsgReceivev(chid, parts, 2, NULL) == 0 && pulse.value.sival_int == 8 && pulse.code == -7);
    check(MsgReceivePulsev(chid, parts, 2, NULL) == 0 && pulse.value.sival_int == 1 && pulse.code == 6);
    check(MsgSendPulse(coid, 1, -7, 8) == 0 && MsgReceive(chid, room, 8, NULL) == 0 && room[4] == -7);
    check(MsgSendPulse(coid, 1, 7, 8) == 0 && MsgReceivePulse_r(chid, NULL, 0, NULL) == 0);
    check(MsgSendPulse(coid, 1, 7, 8) == 0 && MsgReceivePulsev_r(chid, NULL, 0, NULL) == 0);
    check(ConnectDetach(coid) == 0 && ChannelDestroy(chid) == 0 && setprio(0, 10) > 0);
}
