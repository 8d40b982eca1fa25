/* Servers that echo, with many clients at once, each on a thread of its own. */
#include "tests.h"

enum { STOP = 7, STOPPER = 200 };

struct run {
    int clients, servers, rounds, late, informed;
};
struct worker {
    neutrino *kernel;
    int tid, number;
    struct run *run;
};
union request {
    struct _pulse pulse;
    uint8_t bytes[64];
};

static _Atomic int answered, chid_made;

static void until_made(void) {
    while (atomic_load(&chid_made) == 0) sched_yield();
}

static void answer(int rcvid, union request *r, const struct _msg_info *info, const struct run *run) {
    if (run->informed) {
        check(info->pid == CLIENTS && info->tid == r->bytes[0] && info->msglen == 4 && info->srcmsglen == 4);
        check(info->dstmsglen == 8 && info->chid == atomic_load(&chid_made));
    }
    atomic_fetch_add(&answered, 1);
    r->bytes[1] ^= 0xff;
    if (MsgReply(rcvid, r->bytes[2], r->bytes, 4) == -1) check(errno == ESRCH && run->late);
}

static void *serve(void *argument) {
    struct worker *w = argument;
    check(neutrino_join(w->kernel, w->tid) == 0);
    if (w->number == 0) atomic_store(&chid_made, ChannelCreate(_NTO_CHF_UNBLOCK));
    until_made();
    for (;;) {
        union request r;
        struct _msg_info info;
        memset(&r, 0, sizeof r);
        int rcvid = MsgReceive(atomic_load(&chid_made), &r, sizeof r, w->run->informed ? &info : NULL);
        check(rcvid >= 0);
        if (rcvid) {
            answer(rcvid, &r, &info, w->run);
            continue;
        }
        if (r.pulse.code == STOP) break;
        check(r.pulse.code == _PULSE_CODE_UNBLOCK);
        if (r.pulse.value.sival_int && MsgError(r.pulse.value.sival_int, ETIME) == -1) check(errno == ESRCH);
    }
    check(neutrino_leave() == 0);
    return NULL;
}

static void *ask(void *argument) {
    struct worker *w = argument;
    unsigned seed = (unsigned)w->tid;
    intptr_t late = 0;
    check(neutrino_join(w->kernel, w->tid) == 0);
    until_made();
    int coid = ConnectAttach(0, SERVER, atomic_load(&chid_made), _NTO_SIDE_CHANNEL, 0);
    check(coid > 0);
    for (int round = 0; round < w->run->rounds; round++) {
        uint8_t sent[4] = {(uint8_t)w->tid, (uint8_t)round, (uint8_t)(round >> 8), 5}, back[8] = {0};
        if (w->run->late) set_timeout(_NTO_TIMEOUT_SEND | _NTO_TIMEOUT_REPLY, 1 + (uint64_t)rand_r(&seed) % 60000);
        long status = MsgSend(coid, sent, sizeof sent, back, sizeof back);
        if (w->run->late && status == -1) {
            check(errno == ETIMEDOUT || errno == ETIME);
            late++;
            continue;
        }
        sent[1] ^= 0xff;
        check(status == sent[2] && memcmp(sent, back, 4) == 0 && back[4] == 0);
    }
    check(ConnectDetach(coid) == 0);
    check(neutrino_leave() == 0);
    return (void *)late;
}

static neutrino *open_echo(const struct run *run) {
    struct neutrino_thread threads[64];
    int count = run->clients + run->servers;
    for (int at = 0; at < count; at++) {
        int process = at < run->servers ? SERVER : CLIENTS;
        threads[at] = (struct neutrino_thread){(uint8_t)(at + 1), (uint8_t)process, (uint8_t)(10 + at % 7)};
    }
    threads[count] = (struct neutrino_thread){STOPPER, CLIENTS, 1};
    neutrino *kernel = neutrino_open(threads, (size_t)count + 1);
    check(kernel);
    return kernel;
}

static void stop(neutrino *kernel, int servers) {
    fails(neutrino_close(kernel), EBUSY);
    check(neutrino_join(kernel, STOPPER) == 0);
    int coid = ConnectAttach(0, SERVER, atomic_load(&chid_made), 0, 0);
    for (int at = 0; at < servers; at++) check(MsgSendPulse(coid, -1, STOP, 0) == 0);
    check(neutrino_leave() == 0);
}

static void echo(struct run run) {
    struct worker workers[64];
    pthread_t running[64];
    long late = 0;
    int count = run.clients + run.servers;
    atomic_store(&answered, 0);
    atomic_store(&chid_made, 0);
    neutrino *kernel = open_echo(&run);
    for (int at = 0; at < count; at++) {
        workers[at] = (struct worker){kernel, at + 1, at, &run};
        running[at] = start(at < run.servers ? serve : ask, &workers[at]);
    }
    for (int at = run.servers; at < count; at++) late += result_of(running[at]);
    stop(kernel, run.servers);
    for (int at = 0; at < run.servers; at++) result_of(running[at]);
    if (!run.late) check(atomic_load(&answered) == run.clients * run.rounds && late == 0);
    check(neutrino_close(kernel) == 0);
}

void echo_1_1(void) { echo((struct run){1, 1, rounds, 0, 0}); }
void echo_8_4(void) { echo((struct run){8, 4, rounds / 4, 0, 1}); }
void echo_32_16(void) { echo((struct run){32, 16, rounds / 16, 0, 0}); }
void late_8_4(void) { echo((struct run){8, 4, rounds / 4, 1, 1}); }
void late_40_8(void) { echo((struct run){40, 8, rounds / 16, 1, 0}); }
