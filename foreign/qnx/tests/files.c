/* Files of the host that a dispatch handle waits for. */
#include "tests.h"

#include <fcntl.h>
#include <sys/socket.h>

static int calls;
static unsigned ready;

/* Reads a byte, and counts. */
static int read_one(select_context_t *ctp, int fd, unsigned flags, void *handle) {
    char byte;
    calls++;
    ready = flags;
    check(ctp->rcvid == 0 && handle == &calls);
    if (flags & SELECT_FLAG_READ) check(read(fd, &byte, 1) >= 0);
    return 0;
}

static void serve_file(dispatch_context_t *ctp) {
    int before = calls;
    while (calls == before) check(dispatch_block(ctp) == ctp && dispatch_handler(ctp) == 0);
}

static void no_file(dispatch_t *dpp, dispatch_context_t *ctp) {
    struct timespec brief = {0, 20000000};
    check(dispatch_timeout(dpp, &brief) == 0 && !dispatch_block(ctp) && errno == ETIMEDOUT);
    check(dispatch_timeout(dpp, NULL) == 0);
}

void selected(void) {
    int pipes[2], sockets[2];
    dispatch_t *dpp = dispatch_create();
    check(pipe(pipes) == 0 && socketpair(AF_UNIX, SOCK_STREAM, 0, sockets) == 0);
    check(select_attach(dpp, NULL, pipes[0], SELECT_FLAG_READ | SELECT_FLAG_REARM, read_one, &calls) == 0);
    dispatch_context_t *ctp = dispatch_context_alloc(dpp);
    no_file(dpp, ctp);
    check(write(pipes[1], "abc", 3) == 3);
    for (int turn = 0; turn < 3; turn++) serve_file(ctp);
    check(ready == SELECT_FLAG_READ);
    no_file(dpp, ctp);
    check(select_attach(dpp, NULL, sockets[0], SELECT_FLAG_WRITE, read_one, &calls) == 0);
    serve_file(ctp);
    check(ready == SELECT_FLAG_WRITE);
    no_file(dpp, ctp); /* it isn't watched again */
    check(select_attach(dpp, NULL, sockets[0], SELECT_FLAG_READ | SELECT_FLAG_WRITE, read_one, &calls) == 0);
    serve_file(ctp);
    check(ready == SELECT_FLAG_WRITE && select_detach(dpp, sockets[0]) == 0);
    check(select_attach(dpp, NULL, sockets[0], SELECT_FLAG_EXCEPT, read_one, &calls) == 0);
    no_file(dpp, ctp);
    if (send(sockets[1], "x", 1, MSG_OOB) == 1) { /* an older host can't */
        serve_file(ctp);
        check(ready == SELECT_FLAG_EXCEPT);
    }
    check(close(pipes[1]) == 0);
    serve_file(ctp); /* the end of the pipe can be read */
    check(ready == SELECT_FLAG_READ && select_detach(dpp, pipes[0]) == 0);
    dispatch_context_free(ctp);
    check(dispatch_destroy(dpp) == 0 && close(pipes[0]) == 0 && close(sockets[0]) == 0 && close(sockets[1]) == 0);
}

/* A file that is detached while its pulse is queued isn't handled. */
void deselected(void) {
    int pipes[2], before = calls;
    dispatch_t *dpp = dispatch_create();
    check(pipe(pipes) == 0 && write(pipes[1], "a", 1) == 1);
    check(select_attach(dpp, NULL, pipes[0], SELECT_FLAG_READ, read_one, &calls) == 0);
    dispatch_context_t *ctp = dispatch_context_alloc(dpp);
    usleep(20000); /* until the pulse is queued */
    check(select_detach(dpp, pipes[0]) == 0 && dispatch_block(ctp) == ctp && dispatch_handler(ctp) == 0);
    check(calls == before);
    check(select_attach(dpp, NULL, pipes[0], SELECT_FLAG_READ, read_one, &calls) == 0);
    serve_file(ctp);
    check(close(pipes[0]) == 0 && close(pipes[1]) == 0 && pipe(pipes) == 0 && write(pipes[1], "a", 1) == 1);
    check(select_attach(dpp, NULL, pipes[0], SELECT_FLAG_READ, read_one, &calls) == 0); /* another file by now */
    serve_file(ctp);
    dispatch_context_free(ctp);
    check(dispatch_destroy(dpp) == 0 && close(pipes[0]) == 0 && close(pipes[1]) == 0);
}

void select_errors(void) {
    int pipes[2], many[257], regular = open("/proc/self/exe", O_RDONLY);
    dispatch_t *dpp = dispatch_create(), *other = dispatch_create();
    check(pipe(pipes) == 0 && regular != -1);
    fails(select_attach(NULL, NULL, pipes[0], SELECT_FLAG_READ, read_one, NULL), EINVAL);
    fails(select_attach(dpp, NULL, pipes[0], SELECT_FLAG_READ, NULL, NULL), EINVAL);
    fails(select_attach(dpp, NULL, pipes[0], SELECT_FLAG_REARM, read_one, NULL), EINVAL);
    fails(select_attach(dpp, NULL, pipes[0], SELECT_FLAG_READ | 0x100, read_one, NULL), EINVAL);
    fails(select_attach(dpp, NULL, 999, SELECT_FLAG_READ, read_one, NULL), EBADF);
    fails(select_attach(dpp, NULL, regular, SELECT_FLAG_READ, read_one, NULL), EPERM);
    check(select_attach(dpp, NULL, pipes[0], SELECT_FLAG_READ, read_one, NULL) == 0);
    fails(select_attach(other, NULL, pipes[0], SELECT_FLAG_READ, read_one, NULL), EBUSY);
    fails(select_detach(other, pipes[0]), EINVAL);
    fails(select_detach(dpp, pipes[1]), EINVAL);
    fails(select_detach(NULL, pipes[0]), EINVAL);
    for (int at = 0; at < 256; at++) check((many[at] = dup(pipes[0])) != -1);
    for (int at = 0; at < 255; at++) check(select_attach(dpp, NULL, many[at], SELECT_FLAG_READ, read_one, NULL) == 0);
    fails(select_attach(dpp, NULL, many[255], SELECT_FLAG_READ, read_one, NULL), EAGAIN);
    check(dispatch_destroy(dpp) == 0 && dispatch_destroy(other) == 0); /* this detaches all */
    for (int at = 0; at < 256; at++) check(close(many[at]) == 0);
    dpp = dispatch_create();
    check(select_attach(dpp, NULL, pipes[0], SELECT_FLAG_READ, read_one, NULL) == 0 && dispatch_destroy(dpp) == 0);
    check(close(pipes[0]) == 0 && close(pipes[1]) == 0 && close(regular) == 0);
}
