/* All calls by threads with a stack of 16 KiB, the least that the host allows. */
#include "tests.h"

#include <sys/netmgr.h>
#include <sys/wait.h>

#if defined(__SANITIZE_ADDRESS__) || defined(__SANITIZE_THREAD__)
#define LEAST (4 * 16384) /* their frames are longer */
#elif defined(__has_feature)
#if __has_feature(address_sanitizer) || __has_feature(thread_sanitizer)
#define LEAST (4 * 16384)
#endif
#endif
#ifndef LEAST
#define LEAST 16384
#endif

static void ignore(int signo) { (void)signo; }

static pthread_t start_small(void *(*work)(void *), void *argument) {
    pthread_attr_t attributes;
    pthread_t thread;
    check(pthread_attr_init(&attributes) == 0 && pthread_attr_setstacksize(&attributes, LEAST) == 0);
    check(pthread_create(&thread, &attributes, work, argument) == 0 && pthread_attr_destroy(&attributes) == 0);
    return thread;
}

/* A client. The server below replies to its calls one by one. */
static void *send_all(void *coid) {
    char bytes[8] = "message";
    iov_t parts[2] = {{bytes, 4}, {bytes + 4, 4}};
    int over = *(int *)coid;
    check(MsgSend(over, bytes, 8, bytes, 8) == 1 && MsgSendv(over, parts, 2, parts, 2) == 2);
    check(MsgSendsvnc_r(over, bytes, 8, parts, 2) == 3 && MsgSendvs(over, parts, 2, bytes, 8) == 4);
    fails(MsgSend(over, bytes, 8, bytes, 8), EPERM);
    set_timeout(_NTO_TIMEOUT_SEND | _NTO_TIMEOUT_REPLY, 1000000);
    fails(MsgSend(over, bytes, 8, bytes, 8), ETIMEDOUT);
    return NULL;
}

static void answer_all(int chid, int coid) {
    char bytes[8];
    iov_t parts[2] = {{bytes, 4}, {bytes + 4, 4}};
    struct _msg_info info;
    struct _client_info client;
    uint32_t key;
    pthread_t sender = start_small(send_all, &coid);
    int rcvid = MsgReceive(chid, bytes, 8, &info);
    check(rcvid > 0 && MsgInfo(rcvid, &info) == 0 && MsgRead(rcvid, bytes, 8, 0) == 8 && MsgCurrent(rcvid) == 0);
    check(MsgReadv(rcvid, parts, 2, 0) == 8 && MsgWrite(rcvid, bytes, 8, 0) == 8);
    check(MsgWritev(rcvid, parts, 2, 0) == 8 && ConnectClientInfo(info.scoid, &client, __NGROUPS_MAX) == 0);
    check(MsgKeyData(rcvid, _NTO_KEYDATA_CALCULATE, 1, &key, parts, 2) == 0 && MsgReply(rcvid, 1, bytes, 8) == 0);
    check(MsgReplyv(MsgReceivev(chid, parts, 2, &info), 2, parts, 2) == 0);
    check(MsgReply_r(MsgReceive_r(chid, bytes, 8, NULL), 3, NULL, 0) == EOK);
    check(MsgReply(MsgReceive(chid, bytes, 8, NULL), 4, NULL, 0) == 0);
    check(MsgError(MsgReceive(chid, bytes, 8, NULL), EPERM) == 0 && result_of(sender) == 0);
}

static void use_pulses(int chid, int coid) {
    struct _pulse pulse;
    iov_t parts[1] = {{&pulse, sizeof pulse}};
    struct sigevent event;
    struct itimerspec time = {{0, 0}, {0, 1000}}, left;
    struct _timer_info info;
    timer_t id;
    check(MsgSendPulse(coid, 10, -3, 1) == 0 && MsgReceivePulse(chid, &pulse, sizeof pulse, NULL) == 0);
    check(MsgSendPulsePtr(coid, 10, 3, &pulse) == 0 && MsgReceivePulsev(chid, parts, 1, NULL) == 0);
    SIGEV_PULSE_INIT(&event, coid, 10, 4, 1);
    check(MsgVerifyEvent(0, &event) == 0 && MsgRegisterEvent(&event, coid) == 0);
    check(MsgDeliverEvent(0, &event) == 0 && MsgReceive(chid, &pulse, sizeof pulse, NULL) == 0);
    check(timer_create(CLOCK_MONOTONIC, &event, &id) == 0 && timer_settime(id, 0, &time, NULL) == 0);
    check(MsgReceivePulse(chid, &pulse, sizeof pulse, NULL) == 0 && timer_gettime(id, &left) == 0);
    check(TimerInfo(0, id, 0, &info) == id && timer_getoverrun(id) == 0 && timer_delete(id) == 0);
    SIGEV_SIGNAL_INIT(&event, SIGUSR1);
    check(signal(SIGUSR1, ignore) != SIG_ERR && MsgDeliverEvent(0, &event) == 0);
    check(timer_create(CLOCK_MONOTONIC, &event, &id) == 0 && timer_delete(id) == 0);
}

static void *wait_on(void *chid) {
    char bytes[8];
    MsgReceive(*(int *)chid, bytes, 8, NULL);
    return NULL;
}

static void use_threads(int chid) {
    struct sched_param param;
    static char line[4096];
    char text[32] = "name";
    union {
        struct _thread_name name;
        char room[64];
    } data = {.name = {.new_name_len = 4}};
    int ends[2];
    memcpy(data.name.name_buf, text, 5);
    check(SchedGet(0, 0, &param) != -1 && SchedSet(0, 0, SCHED_RR, &param) == 0 && setprio(0, 10) > 0 && gettid() > 0);
    check(pthread_setschedprio(pthread_self(), 10) == 0 && ThreadCtl(_NTO_TCTL_NAME, &data) == 0);
    check(ClockId(0, 0) != -1 && pthread_sleepon_lock() == 0);
    check(pthread_sleepon_timedwait(text, 1000) == ETIMEDOUT && pthread_sleepon_unlock() == 0);
    pthread_t waiting = start_small(wait_on, &chid);
    while (neutrino_state(gettid()) != STATE_READY) usleep(50);
    check(pipe(ends) == 0);
    neutrino_show(ends[1]);
    check(read(ends[0], line, sizeof line) > 0 && close(ends[0]) == 0 && close(ends[1]) == 0);
    usleep(1000);
    check(pthread_cancel(waiting) == 0 && result_of(waiting) == (long)PTHREAD_CANCELED);
}

static void *use_all(void *unused) {
    struct _server_info server;
    int chid = ChannelCreate(_NTO_CHF_COID_DISCONNECT | _NTO_CHF_UNBLOCK | _NTO_CHF_THREAD_DEATH);
    int plain = ChannelCreate(0), coid = attach(plain), gone = ChannelCreate(0), over = attach(gone);
    check(ConnectFlags(0, coid, 1, 1) == 0 && ConnectServerInfo(0, coid, &server) == coid);
    answer_all(plain, coid);
    use_pulses(plain, coid);
    use_threads(plain);
    name_attach_t *name = name_attach(NULL, "of a small stack", 0);
    check(name && name_detach(name, 0) == 0);
    check(ChannelDestroy(gone) == 0 && ConnectDetach(over) == 0); /* the first channel gets a pulse */
    check(ConnectDetach(coid) == 0 && ChannelDestroy(plain) == 0 && ChannelDestroy(chid) == 0);
    return unused;
}

/* Makes the first call, which opens the kernel, and all other calls. Then it makes them again with a
 * record. */
void small_stacks(void) {
    for (int records = 0; records < 2; records++) {
        char file[] = "/tmp/small_stacks.XXXXXX";
        int status, fd = mkstemp(file);
        check(fd != -1 && close(fd) == 0);
        pid_t child = fork();
        if (child == 0) {
            alarm(HANGS);
            if (records) check(setenv("BALSAEUCHRE_RECORD", file, 1) == 0);
            result_of(start_small(use_all, NULL));
            _exit(0);
        }
        check(waitpid(child, &status, 0) == child && WIFEXITED(status) && WEXITSTATUS(status) == 0);
        check(unlink(file) == 0);
    }
}
