/* A device as a server: commands by devctl, numbers in the device's order of bytes, and the client's identity. */
#include <devctl.h>
#include <errno.h>
#include <gulliver.h>
#include <pthread.h>
#include <stdio.h>
#include <stdlib.h>
#include <string.h>
#include <sys/neutrino.h>
#include <unistd.h>

#define DCMD_SET_SPEED __DIOT(_DCMD_MISC, 1, uint32_t)
#define DCMD_GET_SPEED __DIOF(_DCMD_MISC, 2, uint32_t)
#define DCMD_RESET __DION(_DCMD_MISC, 3)

typedef struct {
    io_devctl_t head;
    uint32_t data;
} message_t;

static unsigned char registers[8]; /* the speed is at 1, with the highest byte first */

/* Only the program's own user may reset the device. */
static int reset(int scoid)
{
    struct _client_info *info = NULL;
    int status;

    if (ConnectClientInfoExt(scoid, &info, _NTO_CLIENTINFO_GETGROUPS) == -1)
        return errno;
    status = info->cred.euid == geteuid() ? EOK : EPERM;
    ClientInfoExtFree(&info);
    if (status == EOK)
        memset(registers, 0, sizeof registers);
    return status;
}

static void serve(int rcvid, message_t *msg, int scoid)
{
    int dcmd = msg->head.i.dcmd, status = EOK;
    size_t length = sizeof msg->head.o;

    MsgPause(rcvid, 0); /* the device is slow, so the work has the server's own priority */
    if (dcmd == DCMD_SET_SPEED) {
        UNALIGNED_PUT32(registers + 1, ENDIAN_BE32(*(uint32_t *)_DEVCTL_DATA(msg->head.i)));
    } else if (dcmd == DCMD_GET_SPEED) {
        msg->data = ENDIAN_BE32(UNALIGNED_RET32(registers + 1));
        length += sizeof msg->data;
    } else {
        status = dcmd == DCMD_RESET ? reset(scoid) : ENOTTY;
    }
    memset(&msg->head.o, 0, sizeof msg->head.o);
    msg->head.o.ret_val = 7;
    if (status == EOK)
        MsgReply(rcvid, EOK, msg, length);
    else
        MsgError(rcvid, status);
}

static void *device(void *chid)
{
    message_t msg;
    struct _msg_info info;
    int rcvid;

    while ((rcvid = MsgReceive(*(int *)chid, &msg, sizeof msg, &info)) > 0)
        serve(rcvid, &msg, info.scoid);
    return NULL;
}

int main(void)
{
    struct nto_channel_config config;
    uint32_t speed = 0x010203;
    pthread_t thread;
    int chid, coid, info = 0;

    memset(&config, 0, sizeof config);
    SIGEV_NONE_INIT(&config.event);
    config.num_pulses = 16;
    chid = ChannelCreatePulsePool(0, &config);
    coid = ConnectAttach(ND_LOCAL_NODE, 0, chid, _NTO_SIDE_CHANNEL, _NTO_COF_REG_EVENTS);
    pthread_create(&thread, NULL, device, &chid);
    printf("set: %d", devctl(coid, DCMD_SET_SPEED, &speed, sizeof speed, &info));
    printf(", info %d, register %02x%02x%02x%02x\n", info, registers[1], registers[2], registers[3], registers[4]);
    speed = 0;
    printf("get: %d", devctl(coid, DCMD_GET_SPEED, &speed, sizeof speed, NULL));
    printf(", %#x, little end first: %s\n", speed,
           ENDIAN_LE32(speed) == ENDIAN_RET32(ENDIAN_BE32(speed)) ? "yes" : "no");
    printf("reset: %d\n", devctl(coid, DCMD_RESET, NULL, 0, NULL));
    devctl(coid, DCMD_GET_SPEED, &speed, sizeof speed, NULL);
    printf("speed: %u\n", speed);
    printf("another command: %s\n", strerror(devctl(coid, __DION(_DCMD_MISC, 9), NULL, 0, NULL)));
    ChannelDestroy(chid);
    pthread_join(thread, NULL);
    return EXIT_SUCCESS;
}
