/* An unblock pulse forgotten: before the server waits for its device it throws away old pulses of it, and with them a
 * client's unblock pulse. */
#include "common.h"

enum { READ = 1, DONE = _PULSE_CODE_MINAVAIL, STOP };

static int chid, device_chid;

static void *device(void *arg) {
    message_t msg;
    for (;;) {
        int rcvid = MsgReceive(device_chid, &msg, sizeof msg, NULL);
        if (rcvid == 0) return arg;
        MsgReply(rcvid, EOK, NULL, 0); /* it has begun, and this one never ends */
    }
}

static void drop_pulses(void) {
    struct _pulse pulse;
    do {
        TimerTimeout(CLOCK_MONOTONIC, _NTO_TIMEOUT_RECEIVE, NULL, NULL, NULL);
    } while (MsgReceivePulse(chid, &pulse, sizeof pulse, NULL) == 0);
}

static void *server(void *arg) {
    int coid = attach(device_chid), held = 0;
    message_t msg;
    for (;;) {
        int rcvid = MsgReceive(chid, &msg, sizeof msg, NULL);
        if (rcvid > 0) {
            message_t begin = {.request = {READ, 0}};
            held = rcvid;
            MsgSend(coid, &begin, sizeof begin, NULL, 0);
            drop_pulses();
        } else if (msg.pulse.code == _PULSE_CODE_UNBLOCK) {
            MsgError(msg.pulse.value.sival_int, EINTR);
            held = 0;
        } else if (msg.pulse.code == DONE) {
            if (held) MsgReply(held, EOK, NULL, 0);
        } else {
            return arg;
        }
    }
}

static void *client(void *arg) {
    message_t msg = {.request = {READ, 0}};
    uint64_t limit = 50000000;
    int coid = attach(chid);
    for (int i = 0; i < 2; i++) {
        TimerTimeout(CLOCK_MONOTONIC, _NTO_TIMEOUT_SEND | _NTO_TIMEOUT_REPLY, NULL, &limit, NULL);
        assert(MsgSend(coid, &msg, sizeof msg, NULL, 0) == -1);
    }
    return arg;
}

int main(int argc, char **argv) {
    chid = ChannelCreate(_NTO_CHF_UNBLOCK);
    device_chid = ChannelCreate(0);
    pthread_t serving = start(server, NULL), working = start(device, NULL);
    begin_noise(argc, argv);
    join(start(client, NULL));
    MsgSendPulse(attach(chid), 10, STOP, 0);
    join(serving);
    MsgSendPulse(attach(device_chid), 10, STOP, 0);
    join(working);
    end_noise();
    return 0;
}
