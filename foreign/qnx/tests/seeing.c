/* The ways to see a run: neutrino_show, SIGQUIT, and reports of circles of senders. */
#include "tests.h"

#include <sys/wait.h>

static char text[8192];

/* Reads from a pipe until the text has these words. Returns 0 if they don't come. */
static int reads_to(int fd, const char *words) {
    size_t length = 0;
    text[0] = 0;
    while (!strstr(text, words) && length < sizeof text - 1) {
        ssize_t count = read(fd, text + length, sizeof text - 1 - length);
        if (count <= 0) return 0;
        length += (size_t)count;
        text[length] = 0;
    }
    return 1;
}

void shown(void) {
    struct client first, second;
    int ends[2], chid = ChannelCreate(0), coid = attach(chid);
    char line[200];
    check(pipe(ends) == 0);
    begin_send(&first, coid);
    check(pthread_setname_np(first.thread, "a client") == 0 && pthread_setname_np(0, "longer than 15 bytes") == 0);
    int rcvid = receive(chid);
    second.tid = 0;
    neutrino_show(ends[1]);
    snprintf(line, sizeof line, "%8d   2 a client          10 REPLY    chid %d, thread 1 (", getpid(), chid);
    check(reads_to(ends[0], line) && strstr(text, "pid tid name") == text + 5);
    check(strstr(text, "   1 longer than 15    10 READY\n"));
    check(pthread_setname_np(pthread_self(), "e\033[1m\n\302\233\177") == 0);
    neutrino_show(ends[1]);
    check(reads_to(ends[0], line) && strstr(text, "   1 e?[1m????         10 READY\n"));
    check(pthread_setname_np(pthread_self(), "tests") == 0);
    check(MsgReply(rcvid, 0, NULL, 0) == 0);
    end_send(&first);
    begin_send(&second, coid);
    neutrino_show(ends[1]);
    snprintf(line, sizeof line, "SEND     chid %d, thread 1 (", chid);
    check(reads_to(ends[0], line) && MsgReply(receive(chid), 0, NULL, 0) == 0);
    end_send(&second);
    check(close(ends[0]) == 0 && close(ends[1]) == 0 && ConnectDetach(coid) == 0 && ChannelDestroy(chid) == 0);
}

struct pair {
    int chid, coid;
};

static void *send_across(void *argument) {
    struct pair *own = argument;
    own->chid = ChannelCreate(0);
    while (!((volatile struct pair *)own)->coid) usleep(100);
    MsgSend(own->coid, "", 1, NULL, 0);
    return NULL;
}

/* Runs work in a child, whose standard error is a pipe and whose environment has the variable asked. Returns
 * the pipe's end to read from. */
static int in_a_child(void (*work)(void), const char *asked, pid_t *pid) {
    int ends[2];
    check(pipe(ends) == 0);
    pid_t child = fork();
    if (child == 0) {
        alarm(HANGS);
        check(signal(SIGQUIT, SIG_DFL) != SIG_ERR); /* shells make their background jobs ignore it */
        check(dup2(ends[1], STDERR_FILENO) == STDERR_FILENO && close(ends[1]) == 0);
        if (asked) check(setenv(asked, "1", 1) == 0);
        work();
        _exit(0);
    }
    check(close(ends[1]) == 0);
    *pid = child;
    return ends[0];
}

static void close_circle(void) {
    static struct pair pairs[2];
    pthread_t threads[2] = {start(send_across, &pairs[0]), start(send_across, &pairs[1])};
    check(pthread_setname_np(threads[0], "files") == 0);
    while (!((volatile struct pair *)pairs)[0].chid || !((volatile struct pair *)pairs)[1].chid) usleep(100);
    pairs[0].coid = attach(pairs[1].chid);
    pairs[1].coid = attach(pairs[0].chid);
    pause();
}

void circles(void) {
    pid_t child;
    int fd = in_a_child(close_circle, "BALSAEUCHRE_CIRCLES", &child), status;
    check(reads_to(fd, "\n"));
    check(strstr(text, "balsaeuchre: a circle of senders: thread 2 (files) waits for thread 3, thread 3 (") == text);
    check(strstr(text, ") waits for thread 2\n"));
    check(close(fd) == 0 && kill(child, SIGKILL) == 0 && waitpid(child, &status, 0) == child);
}

static void quit_blocked(void) {
    char room[8];
    int chid = ChannelCreate(0);
    check(kill(getpid(), SIGQUIT) == 0);
    MsgReceive(chid, room, sizeof room, NULL);
}

void quits(void) {
    pid_t child;
    int fd = in_a_child(quit_blocked, NULL, &child), status;
    check(reads_to(fd, "\n"));
    check(strstr(text, "pid tid name"));
    check(close(fd) == 0 && kill(child, SIGKILL) == 0 && waitpid(child, &status, 0) == child);
}
