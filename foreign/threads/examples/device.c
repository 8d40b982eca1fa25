/* A device driver as one writes it for QNX: a resource manager's loop.
 *
 * The device holds one line, which one client writes and another reads. A client that reads an empty device
 * is REPLY-blocked until a line comes. If the client is tired of waiting, a pulse asks the driver to unblock
 * it. The driver also gets a pulse for each interrupt. Two things differ from QNX: the kernel is opened, and
 * each thread joins it and leaves.
 */
#include <errno.h>
#include <pthread.h>
#include <stdint.h>
#include <stdio.h>
#include <string.h>
#include <sys/neutrino.h>

enum { DRIVER = 1, READER, WRITER }; /* threads, each a process of its own */
enum { IO_READ = 0x101, IO_WRITE, IO_STAT };
enum { PULSE_INTERRUPT = _PULSE_CODE_MINAVAIL, PULSE_QUIT };
enum { MAX_WAITING = 8, LINE = 32 };

typedef struct {
    uint16_t type, nbytes;
} io_hdr_t;
typedef struct {
    io_hdr_t hdr;
    char data[2 * LINE];
} io_write_t;
typedef union {
    uint16_t type;
    struct _pulse pulse;
    io_hdr_t read;
    io_write_t write;
} io_msg_t;
typedef struct {
    uint32_t waiting, interrupts;
} io_stat_t;

typedef struct {
    char line[LINE];
    size_t length;                      /* 0: there is no line */
    int waiting[MAX_WAITING], nwaiting; /* the reads that wait, by their rcvids */
    uint32_t interrupts;
} device_t;

static neutrino *kernel;
static int chid;

static int take_waiting(device_t *dev, int at) {
    int rcvid = dev->waiting[at];
    dev->nwaiting--;
    memmove(dev->waiting + at, dev->waiting + at + 1, (size_t)(dev->nwaiting - at) * sizeof rcvid);
    return rcvid;
}

static void deliver(device_t *dev) {
    if (!dev->length || !dev->nwaiting) return;
    MsgReply(take_waiting(dev, 0), (long)dev->length, dev->line, dev->length);
    dev->length = 0;
}

static int io_read(device_t *dev, int rcvid) {
    if (dev->nwaiting == MAX_WAITING) return EAGAIN;
    dev->waiting[dev->nwaiting++] = rcvid;
    deliver(dev);
    return EOK;
}

static int io_write(device_t *dev, int rcvid, const io_write_t *msg, const struct _msg_info *info) {
    size_t length = msg->hdr.nbytes;
    if (length == 0 || length > LINE) return EMSGSIZE;
    if ((size_t)info->msglen < sizeof msg->hdr + length) return EBADMSG;
    if (dev->length) return EBUSY;
    memcpy(dev->line, msg->data, dev->length = length);
    MsgReply(rcvid, (long)length, NULL, 0);
    deliver(dev);
    return EOK;
}

static int io_stat(const device_t *dev, int rcvid) {
    io_stat_t stat = {(uint32_t)dev->nwaiting, dev->interrupts};
    MsgReply(rcvid, EOK, &stat, sizeof stat);
    return EOK;
}

static void io_unblock(device_t *dev, int rcvid) {
    for (int at = 0; at < dev->nwaiting; at++) {
        if (dev->waiting[at] == rcvid) MsgError(take_waiting(dev, at), EINTR);
    }
}

static void handle_message(device_t *dev, int rcvid, const io_msg_t *msg, const struct _msg_info *info) {
    int error = ENOSYS;
    switch (msg->type) {
    case IO_READ:
        error = io_read(dev, rcvid);
        break;
    case IO_WRITE:
        error = io_write(dev, rcvid, &msg->write, info);
        break;
    case IO_STAT:
        error = io_stat(dev, rcvid);
        break;
    }
    if (error != EOK) MsgError(rcvid, error);
}

static int handle_pulse(device_t *dev, const struct _pulse *pulse) {
    switch (pulse->code) {
    case _PULSE_CODE_UNBLOCK:
        io_unblock(dev, pulse->value.sival_int);
        break;
    case _PULSE_CODE_DISCONNECT:
        ConnectDetach(pulse->scoid);
        break;
    case PULSE_INTERRUPT:
        dev->interrupts += (uint32_t)pulse->value.sival_int;
        break;
    case PULSE_QUIT:
        return -1;
    }
    return 0;
}

static void *driver(void *arg) {
    device_t dev = {.length = 0};
    io_msg_t msg;
    struct _msg_info info;
    neutrino_join(kernel, DRIVER);
    for (;;) {
        int rcvid = MsgReceive(chid, &msg, sizeof msg, &info);
        if (rcvid == -1) break;
        if (rcvid > 0) handle_message(&dev, rcvid, &msg, &info);
        else if (handle_pulse(&dev, &msg.pulse) == -1) break;
    }
    ChannelDestroy(chid);
    neutrino_leave();
    return arg;
}

static int open_device(int tid) {
    neutrino_join(kernel, tid);
    return ConnectAttach(ND_LOCAL_NODE, DRIVER, chid, _NTO_SIDE_CHANNEL, 0);
}

static void *reader(void *arg) {
    io_hdr_t msg = {IO_READ, LINE};
    char line[LINE];
    long length;
    int coid = open_device(READER);
    while ((length = MsgSend(coid, &msg, sizeof msg, line, sizeof line)) != -1) {
        printf("reader: %ld bytes '%.*s'\n", length, (int)length, line);
    }
    printf("reader: the device is gone\n"); /* ESRCH if the read was waiting, EBADF if it came later */
    neutrino_leave();
    return arg;
}

static void read_for(int coid, uint64_t nanoseconds) {
    io_hdr_t msg = {IO_READ, LINE};
    struct sigevent event;
    SIGEV_UNBLOCK_INIT(&event);
    TimerTimeout(CLOCK_MONOTONIC, _NTO_TIMEOUT_SEND | _NTO_TIMEOUT_REPLY, &event, &nanoseconds, NULL);
    if (MsgSend(coid, &msg, sizeof msg, NULL, 0) == -1) printf("writer: read: %s\n", strerror(errno));
}

static long write_line(int coid, const char *line) {
    io_write_t msg = {{IO_WRITE, (uint16_t)strlen(line)}, ""};
    memcpy(msg.data, line, msg.hdr.nbytes);
    return MsgSend(coid, &msg, sizeof msg.hdr + msg.hdr.nbytes, NULL, 0);
}

static void try_the_device(int coid) {
    io_hdr_t ask = {IO_STAT, 0}, unknown = {0x777, 0};
    io_stat_t stat = {0, 0};
    while (stat.waiting == 0 && MsgSend(coid, &ask, sizeof ask, &stat, sizeof stat) != -1) sched_yield();
    printf("writer: %u interrupts, %u reader waits\n", stat.interrupts, stat.waiting);
    if (write_line(coid, "a line that is longer than the device's") == -1) printf("writer: %s\n", strerror(errno));
    if (MsgSend(coid, &unknown, sizeof unknown, NULL, 0) == -1) printf("writer: %s\n", strerror(errno));
}

int main(void) {
    const struct neutrino_thread threads[] = {{DRIVER, 1, 20}, {READER, 2, 10}, {WRITER, 3, 10}};
    pthread_t running[2];
    kernel = neutrino_open(threads, 3);
    if (!kernel) return 1;
    neutrino_join(kernel, DRIVER);
    chid = ChannelCreate(_NTO_CHF_UNBLOCK | _NTO_CHF_DISCONNECT);
    neutrino_leave();
    int coid = open_device(WRITER);
    pthread_create(&running[0], NULL, driver, NULL);
    /* As the handler of an interrupt does. */
    for (int i = 0; i < 3; i++) MsgSendPulse(coid, 50, PULSE_INTERRUPT, 1);
    read_for(coid, 20 * 1000000ull);
    pthread_create(&running[1], NULL, reader, NULL);
    try_the_device(coid);
    long written = write_line(coid, "first line");
    MsgSendPulse(coid, -1, PULSE_QUIT, 0);
    for (int i = 0; i < 2; i++) pthread_join(running[i], NULL);
    printf("writer: %ld bytes written\n", written);
    neutrino_leave();
    return neutrino_close(kernel);
}
