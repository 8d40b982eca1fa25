/* Small calls and headers. */
#include "tests.h"

#include <confname.h>
#include <devctl.h>
#include <gulliver.h>
#include <share.h>
#include <sync.h>
#include <sys/iomsg.h>
#include <sys/procmgr.h>
#include <sys/utsname.h>

static void *send_empty(void *coid) { return (void *)MsgSend(*(int *)coid, NULL, 0, NULL, 0); }

/* The data of a client, in memory that the call allocates. */
void client_info(void) {
    struct _client_info *info = NULL, plain;
    struct _msg_info message;
    int chid = ChannelCreate(0), coid = attach(chid), groups = getgroups(0, NULL);
    pthread_t client = start(send_empty, &coid);
    int rcvid = MsgReceive(chid, NULL, 0, &message);
    check(rcvid > 0 && ConnectClientInfo(message.scoid, &plain, __NGROUPS_MAX) == 0);
    check(ConnectClientInfoExt(message.scoid, &info, 0) == 0 && info->pid == getpid() && info->cred.ngroups == 0);
    check(ConnectClientInfoExt(message.scoid, &info, _NTO_CLIENTINFO_GETGROUPS) == 0);
    check(info->cred.euid == geteuid() && (int)info->cred.ngroups == groups && info->sid == plain.sid);
    for (unsigned at = 0; at < plain.cred.ngroups; at++) check(info->cred.grouplist[at] == plain.cred.grouplist[at]);
    check(ClientInfoExtFree(&info) == 0 && !info && ClientInfoExtFree(&info) == 0);
    returns_r(ConnectClientInfoExt_r(message.scoid, &info, _NTO_CLIENTINFO_GETTYPEID), EOK);
    check(info->nd == ND_LOCAL_NODE && ClientInfoExtFree(&info) == 0);
    fails(ConnectClientInfoExt(message.scoid, NULL, 0), EFAULT);
    fails(ConnectClientInfoExt(message.scoid, &info, 4), EINVAL);
    fails(ConnectClientInfoExt(coid, &info, 0), EINVAL);
    returns_r(ConnectClientInfoExt_r(-1, &info, 0), EINVAL);
    fails(ClientInfoExtFree(NULL), EFAULT);
    check(!info && MsgReply(rcvid, 0, NULL, 0) == 0 && result_of(client) == 0);
    check(ConnectDetach(coid) == 0 && ChannelDestroy(chid) == 0);
}

/* A receiver that puts a message off has its own priority again, and still holds the message. */
void pauses(void) {
    int chid = ChannelCreate(0), coid = attach(chid);
    check(setprio(0, 30) == 10);
    pthread_t client = start(send_empty, &coid);
    check(setprio(0, 12) == 30);
    int rcvid = MsgReceive(chid, NULL, 0, NULL);
    check(rcvid > 0 && getprio(0) == 30 && MsgPause(rcvid, 0) == 0 && getprio(0) == 12);
    returns_r(MsgPause_r(rcvid, 5), EOK);
    check(MsgReply(rcvid, 6, NULL, 0) == 0 && result_of(client) == 6);
    fails(MsgPause(rcvid, 0), ESRCH);
    returns_r(MsgPause_r(-1, 0), ESRCH);
    check(setprio(0, 10) == 12 && ConnectDetach(coid) == 0 && ChannelDestroy(chid) == 0);
}

void pools_of_pulses(void) {
    struct nto_channel_config config = {.num_pulses = 1024}, none = {.num_pulses = 0}, many = {.num_pulses = 1025};
    struct _pulse pulse;
    SIGEV_NONE_INIT(&config.event);
    int chid = ChannelCreatePulsePool(0, &config), coid = attach(chid);
    check(chid > 0 && MsgSendPulse(coid, 10, 3, 4) == 0);
    check(MsgReceivePulse(chid, &pulse, sizeof pulse, NULL) == 0 && pulse.value.sival_int == 4);
    check(ConnectDetach(coid) == 0 && ChannelDestroy(chid) == 0);
    fails(ChannelCreatePulsePool(0, NULL), EINVAL);
    fails(ChannelCreatePulsePool(0, &none), EINVAL);
    fails(ChannelCreatePulsePool(0, &many), EINVAL);
    fails_r(ChannelCreatePulsePool_r(0x80000000u, &config), EINVAL);
}

enum { GIVE = 7 };
#define DCMD_GIVE __DIOTF(_DCMD_MISC, GIVE, uint32_t)
#define DCMD_NONE __DION(_DCMD_MISC, 8)

static int chid_of_device;

/* A server of three commands: it adds 1 to a number, replies without data, and fails. */
static void *serve_device(void *argument) {
    struct {
        struct _io_devctl head;
        uint32_t data;
    } message;
    for (int times = 0; times < 3; times++) {
        int rcvid = MsgReceive(chid_of_device, &message, sizeof message, NULL);
        check(rcvid > 0 && message.head.type == _IO_DEVCTL && message.head.combine_len == sizeof message.head);
        struct {
            struct _io_devctl_reply head;
            uint32_t data;
        } reply = {{0, 55, sizeof reply.data, 0}, message.data + 1};
        if (times == 2) check(MsgError(rcvid, EIO) == 0);
        else check(MsgReply(rcvid, EOK, &reply, message.head.dcmd == DCMD_GIVE ? sizeof reply : 0) == 0);
    }
    return argument;
}

void devices(void) {
    uint32_t number = 41;
    int info = -1;
    chid_of_device = ChannelCreate(0);
    int coid = attach(chid_of_device);
    pthread_t server = start(serve_device, NULL);
    check(devctl(coid, DCMD_GIVE, &number, sizeof number, &info) == EOK && number == 42 && info == 55);
    check(devctl(coid, DCMD_NONE, NULL, 0, NULL) == EOK);
    check(devctl(coid, DCMD_GIVE, &number, sizeof number, &info) == EIO && number == 42);
    check(result_of(server) == 0 && devctl(-1, DCMD_NONE, NULL, 0, NULL) == EBADF);
    check(devctl(coid, DCMD_GIVE, NULL, 4, NULL) == EFAULT);
    check(devctl(coid, DCMD_GIVE, &number, (size_t)1 << 33, NULL) == EOVERFLOW);
    check(get_device_direction(DCMD_GIVE) == DEVDIR_TOFROM && get_device_direction(DCMD_NONE) == DEVDIR_NONE);
    check(__DIOF(1, 2, char) == (int)0x40010102u && __DIOT(1, 2, uint64_t) == (int)0x80080102u);
    check(ConnectDetach(coid) == 0 && ChannelDestroy(chid_of_device) == 0);
}

static void numbers(void) {
    unsigned char bytes[9] = {0};
    uint32_t number = 0x11223344;
    check(ENDIAN_LE16(0x1122) == 0x1122 && ENDIAN_LE32(number) == number && ENDIAN_LE64(5) == 5);
    check(ENDIAN_BE16(0x1122) == 0x2211 && ENDIAN_BE32(number) == 0x44332211);
    check(ENDIAN_BE64(0x1122334455667788) == 0x8877665544332211 && ENDIAN_RET32(number) == 0x44332211);
    ENDIAN_SWAP32(&number);
    check(number == 0x44332211);
    UNALIGNED_PUT32(bytes + 1, 0x01020304);
    check(bytes[1] == 4 && bytes[4] == 1 && !bytes[5] && UNALIGNED_RET32(bytes + 1) == 0x01020304);
    UNALIGNED_PUT16(bytes + 1, 0x0506);
    check(UNALIGNED_RET16(bytes + 1) == 0x0506 && UNALIGNED_RET32(bytes + 1) == 0x01020506);
    UNALIGNED_PUT64(bytes + 1, 0x0102030405060708);
    check(UNALIGNED_RET64(bytes + 1) == 0x0102030405060708 && bytes[8] == 1);
}

static void names_of_host(void) {
    char text[300] = "", path[300] = "", cut[4] = "...";
    struct utsname host;
    check(uname(&host) == 0 && confstr(_CS_HOSTNAME, text, sizeof text) == strlen(host.nodename) + 1);
    check(strcmp(text, host.nodename) == 0 && confstr(_CS_MACHINE, text, sizeof text) == strlen(host.machine) + 1);
    check(strcmp(text, host.machine) == 0 && confstr(_CS_ARCHITECTURE, NULL, 0) == strlen(host.machine) + 1);
    check(confstr(_CS_SYSNAME, cut, sizeof cut) == 6 && strcmp(cut, "Lin") == 0);
    check(confstr(_CS_RELEASE, text, sizeof text) > 1 && strcmp(text, host.release) == 0);
    check(confstr(_CS_VERSION, text, sizeof text) > 1 && strcmp(text, host.version) == 0);
    check(confstr(_CS_PATH, path, sizeof path) > 1 && *path == '/');
    errno = 0;
    check(confstr(0x6eff, text, sizeof text) == 0 && errno == EINVAL);
}

void small_headers(void) {
    struct sched_param param = {.sched_priority = 0};
    unsigned mask = 5;
    sync_t mutex = PTHREAD_MUTEX_INITIALIZER;
    numbers();
    names_of_host();
    check(pthread_mutex_lock(&mutex) == 0 && SH_DENYNO != SH_DENYRW && _NTO_COF_REG_EVENTS != _NTO_COF_NONBLOCK);
    int policy = SchedGet(0, 0, NULL);
    check(SchedSet(0, 0, SCHED_ADJTOHEAD, &param) == 0 && SchedSet(0, 0, SCHED_ADJTOTAIL, &param) == 0);
    check(getprio(0) == 10 && SchedGet(0, 0, NULL) == policy);
    fails(SchedSet(0, 55, SCHED_ADJTOHEAD, &param), ESRCH);
    fails(ConnectAttach(ND_LOCAL_NODE, SYSMGR_PID, SYSMGR_CHID, SYSMGR_COID, 0), ESRCH);
    fails(MsgSend(SYSMGR_COID, NULL, 0, NULL, 0), EBADF);
    check(ThreadCtl(_NTO_TCTL_RUNMASK, (void *)3) == 0 && ThreadCtl(_NTO_TCTL_RUNMASK_GET_AND_SET, &mask) == 0);
    check(mask == 3 && ThreadCtl(_NTO_TCTL_RUNMASK_GET_AND_SET, &mask) == 0 && mask == 5);
    fails(ThreadCtl(_NTO_TCTL_RUNMASK_GET_AND_SET, NULL), EFAULT);
    fails(ThreadCtl(_NTO_TCTL_ONE_THREAD_HOLD, (void *)1), ENOTSUP);
    fails(ThreadCtl(_NTO_TCTL_ONE_THREAD_CONT, (void *)1), ENOTSUP);
    fails(ThreadCtl(_NTO_TCTL_THREADS_HOLD, NULL), ENOTSUP);
    returns_r(ThreadCtl_r(_NTO_TCTL_THREADS_CONT, NULL), ENOTSUP);
    check(PROCMGR_PID == SYSMGR_PID && pthread_mutex_unlock(&mutex) == 0);
}
