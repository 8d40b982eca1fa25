/* Functions that the daemon's tests share. If a check fails, the test ends its process with status 1. */
#ifndef TESTS_H
#define TESTS_H

#include <errno.h>
#include <poll.h>
#include <pthread.h>
#include <signal.h>
#include <stdbool.h>
#include <stdint.h>
#include <stdio.h>
#include <stdlib.h>
#include <string.h>
#include <sys/dispatch.h>
#include <sys/neutrino.h>
#include <sys/wait.h>
#include <unistd.h>

#define check(holds) \
    do { \
        if (!(holds)) { \
            fprintf(stderr, "%s:%d: %s (errno %d)\n", __FILE__, __LINE__, #holds, errno); \
            _exit(1); \
        } \
    } while (0)
#define fails(call, error) check((call) == -1 && errno == (error))

/* In seconds and in milliseconds, the time within which everything happens, even on a busy machine. */
enum { PATIENCE = 60, LATE = 1000 * PATIENCE };

static inline void set_timeout(int milliseconds) {
    uint64_t time = (uint64_t)milliseconds * 1000000u;
    int states = _NTO_TIMEOUT_SEND | _NTO_TIMEOUT_RECEIVE | _NTO_TIMEOUT_REPLY;
    check(TimerTimeout(CLOCK_MONOTONIC, states, NULL, &time, NULL) == 0);
}

/* Starts a process that does this work and then ends. */
static inline pid_t spawn(void (*work)(void *argument), void *argument) {
    pid_t child = fork();
    if (child == 0) {
        alarm(5 * PATIENCE);
        work(argument);
        _exit(0);
    }
    check(child > 0);
    return child;
}

/* Waits until a process has ended by itself, with status 0. */
static inline void expect_end(pid_t child) {
    int status;
    check(waitpid(child, &status, 0) == child && WIFEXITED(status) && WEXITSTATUS(status) == 0);
}

static inline void kill_child(pid_t child) {
    int status;
    check(kill(child, SIGKILL) == 0 && waitpid(child, &status, 0) == child);
}

/* Opens the name of a server, which may not have started yet. The server must not reply to
 * _IO_CONNECT with an error. */
static inline int open_name(const char *name) {
    for (;;) {
        int coid = name_open(name, 0);
        if (coid != -1) return coid;
        check(errno == ENOENT || errno == ESRCH || errno == EBADF);
        usleep(500);
    }
}

static inline rcvid_t receive_answering_opens(int chid, void *room, size_t length, struct _msg_info *info) {
    for (;;) {
        rcvid_t rcvid = MsgReceive(chid, room, length, info);
        uint16_t type;
        memcpy(&type, room, sizeof type);
        if (rcvid <= 0 || type != _IO_CONNECT) return rcvid;
        check(MsgReply(rcvid, EOK, NULL, 0) == 0 || errno == ESRCH);
    }
}

#endif
