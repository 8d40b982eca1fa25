/* The clients of device.c: this program writes a line, and a child reads it. */
#include <errno.h>
#include <stdio.h>
#include <stdlib.h>
#include <string.h>
#include <sys/dispatch.h>
#include <sys/neutrino.h>
#include <sys/wait.h>

#include "device.h"

static int open_device(void)
{
    int coid;
    while ((coid = name_open("device", 0)) == -1 && errno == ENOENT)
        delay(10);
    return coid;
}

static long write_line(int coid, const char *line)
{
    io_write_t msg = {{IO_WRITE, (uint16_t)strlen(line)}, ""};
    memcpy(msg.data, line, msg.hdr.nbytes);
    return MsgSend(coid, &msg, sizeof msg.hdr + msg.hdr.nbytes, NULL, 0);
}

static int read_line(void)
{
    io_hdr_t msg = {IO_READ, LINE};
    char line[LINE];
    long length = MsgSend(open_device(), &msg, sizeof msg, line, sizeof line);
    printf("reader: %ld bytes '%.*s'\n", length, (int)length, line);
    return EXIT_SUCCESS;
}

int main(void)
{
    io_hdr_t msg = {IO_READ, LINE};
    uint64_t time = 20 * 1000000;
    int coid = open_device();

    setvbuf(stdout, NULL, _IOLBF, 0);
    for (int i = 0; i < 3; i++)
        MsgSendPulse(coid, 50, PULSE_INTERRUPT, 1); /* as an interrupt's handler does */
    TimerTimeout(CLOCK_MONOTONIC, _NTO_TIMEOUT_SEND | _NTO_TIMEOUT_REPLY, NULL, &time, NULL);
    if (MsgSend(coid, &msg, sizeof msg, NULL, 0) == -1)
        printf("writer: read: %s\n", strerror(errno));
    if (write_line(coid, "a line that is longer than the device's") == -1)
        printf("writer: %s\n", strerror(errno));
    pid_t child = fork();
    if (child == 0)
        return read_line();
    long written = write_line(coid, "first line");
    waitpid(child, NULL, 0);
    printf("writer: %ld bytes written\n", written);
    MsgSendPulse(coid, -1, PULSE_QUIT, 0);
    return EXIT_SUCCESS;
}
