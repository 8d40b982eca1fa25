/* A device driver: a resource manager's loop. The device holds one line, which one client writes and another
 * reads. A read of an empty device waits in the driver until a line comes, or until its client is tired of
 * waiting. A pulse ends the driver. */
#include <errno.h>
#include <stdio.h>
#include <stdlib.h>
#include <string.h>
#include <sys/dispatch.h>
#include <sys/neutrino.h>

#include "device.h"

static struct {
    char line[LINE];
    size_t length; /* 0: there is no line */
    int waiting[8], nwaiting, interrupts;
} dev;

static void deliver(void)
{
    if (dev.length == 0 || dev.nwaiting == 0)
        return;
    MsgReply(dev.waiting[--dev.nwaiting], (long)dev.length, dev.line, dev.length);
    dev.length = 0;
}

static int io_read(int rcvid)
{
    if (dev.nwaiting == 8)
        return EAGAIN;
    dev.waiting[dev.nwaiting++] = rcvid;
    deliver();
    return EOK;
}

static int io_write(int rcvid, const io_write_t *msg, const struct _msg_info *info)
{
    size_t length = msg->hdr.nbytes;
    if (length == 0 || length > LINE)
        return EMSGSIZE;
    if ((size_t)info->msglen < sizeof msg->hdr + length)
        return EBADMSG;
    memcpy(dev.line, msg->data, dev.length = length);
    MsgReply(rcvid, (long)length, NULL, 0);
    deliver();
    return EOK;
}

static void io_unblock(int rcvid)
{
    for (int i = 0; i < dev.nwaiting; i++) {
        if (dev.waiting[i] != rcvid)
            continue;
        dev.waiting[i] = dev.waiting[--dev.nwaiting];
        MsgError(rcvid, EINTR);
        printf("driver: a client is tired of waiting\n");
    }
}

static int handle_pulse(const struct _pulse *pulse)
{
    switch (pulse->code) {
    case _PULSE_CODE_UNBLOCK:
        io_unblock(pulse->value.sival_int);
        break;
    case _PULSE_CODE_DISCONNECT:
        ConnectDetach(pulse->scoid);
        break;
    case PULSE_INTERRUPT:
        dev.interrupts += pulse->value.sival_int;
        break;
    case PULSE_QUIT:
        return -1;
    }
    return 0;
}

int main(void)
{
    union {
        uint16_t type;
        struct _pulse pulse;
        io_hdr_t hdr;
        io_write_t write;
    } msg;
    struct _msg_info info;
    name_attach_t *attach = name_attach(NULL, "device", 0);

    if (attach == NULL) {
        perror("name_attach");
        return EXIT_FAILURE;
    }
    for (;;) {
        int rcvid = MsgReceive(attach->chid, &msg, sizeof msg, &info), error = ENOSYS;
        if (rcvid == -1 || (rcvid == 0 && handle_pulse(&msg.pulse) == -1))
            break;
        if (rcvid == 0)
            continue;
        if (msg.type == _IO_CONNECT)
            error = MsgReply(rcvid, EOK, NULL, 0);
        else if (msg.type == IO_READ)
            error = io_read(rcvid);
        else if (msg.type == IO_WRITE)
            error = io_write(rcvid, &msg.write, &info);
        if (error != EOK)
            MsgError(rcvid, error);
    }
    printf("driver: %d interrupts\n", dev.interrupts);
    name_detach(attach, 0);
    return EXIT_SUCCESS;
}
