/* A dispatch loop over the program's own channel: functions are attached and detached while it runs, and another
 * thread ends it. */
#include <errno.h>
#include <pthread.h>
#include <stdatomic.h>
#include <stdio.h>
#include <stdlib.h>
#include <string.h>
#include <sys/dispatch.h>
#include <sys/neutrino.h>
#include <unistd.h>

#define MSG_CALL 0x1000
#define MSG_SWITCH_OFF 0x1001
#define CODE_RING (_PULSE_CODE_MINAVAIL + 3)

static dispatch_t *dpp;
static int pipes[2];
static atomic_int lines;

static int on_call(message_context_t *ctp, int code, unsigned flags, void *handle)
{
    (void)code, (void)flags, (void)handle;
    return MsgReply(ctp->rcvid, 1, NULL, 0);
}

static int on_other(message_context_t *ctp, int code, unsigned flags, void *handle)
{
    (void)flags, (void)handle;
    printf("no range has %#x\n", code);
    return MsgError(ctp->rcvid, ENOTSUP);
}

static int on_ring(message_context_t *ctp, int code, unsigned flags, void *handle)
{
    (void)code, (void)flags, (void)handle;
    printf("ring %d\n", ctp->msg->pulse.value.sival_int);
    return 0;
}

static int on_line(select_context_t *ctp, int fd, unsigned flags, void *handle)
{
    char text[8] = "";

    (void)ctp, (void)flags, (void)handle;
    ssize_t length = read(fd, text, sizeof text - 1);
    printf("line: %zd bytes: %s\n", length, text);
    atomic_fetch_add(&lines, 1);
    return 0;
}

/* Detaches all that is attached. */
static int on_switch_off(message_context_t *ctp, int code, unsigned flags, void *handle)
{
    (void)code, (void)flags, (void)handle;
    printf("detached: %d", message_detach(dpp, MSG_CALL, MSG_CALL, 0));
    printf(" %d", pulse_detach(dpp, CODE_RING, 0));
    printf(" %d", select_detach(dpp, pipes[0]));
    printf(", and once more: %d\n", pulse_detach(dpp, CODE_RING, 0));
    return MsgReply(ctp->rcvid, 0, NULL, 0);
}

static void attach(void)
{
    message_attr_t other;

    memset(&other, 0, sizeof other);
    other.flags = MSG_FLAG_DEFAULT_FUNC;
    message_attach(dpp, NULL, MSG_CALL, MSG_CALL, on_call, NULL);
    message_attach(dpp, NULL, MSG_SWITCH_OFF, MSG_SWITCH_OFF, on_switch_off, NULL);
    message_attach(dpp, &other, 0, 0, on_other, NULL);
    pulse_attach(dpp, 0, CODE_RING, on_ring, NULL);
    select_attach(dpp, NULL, pipes[0], SELECT_FLAG_READ | SELECT_FLAG_REARM, on_line, NULL);
}

static void *loop(void *arg)
{
    dispatch_context_t *ctp = arg;

    while ((ctp = dispatch_block(ctp)) != NULL)
        dispatch_handler(ctp);
    printf("the loop has ended: %s\n", errno == EINTR ? "unblocked" : strerror(errno));
    return NULL;
}

static void call(int coid, int number)
{
    uint16_t type = (uint16_t)number;
    long status = MsgSend(coid, &type, sizeof type, NULL, 0);

    printf("%#x: %s\n", number, status == -1 ? strerror(errno) : status == 1 ? "answered" : "done");
}

int main(void)
{
    pthread_t thread;
    dispatch_context_t *ctp;
    int chid = ChannelCreate(0), coid;

    if (pipe(pipes) == -1 || (dpp = dispatch_create_channel(chid, 0)) == NULL)
        return EXIT_FAILURE;
    setvbuf(stdout, NULL, _IOLBF, 0);
    attach();
    coid = message_connect(dpp, MSG_FLAG_SIDE_CHANNEL);
    if ((ctp = dispatch_context_alloc(dpp)) == NULL)
        return EXIT_FAILURE;
    pthread_create(&thread, NULL, loop, ctp);
    call(coid, MSG_CALL);
    MsgSendPulse(coid, 10, CODE_RING, 7);
    call(coid, MSG_CALL + 5);
    if (write(pipes[1], "hello", 5) != 5)
        return EXIT_FAILURE;
    while (atomic_load(&lines) == 0)
        delay(1);
    call(coid, MSG_SWITCH_OFF);
    MsgSendPulse(coid, 10, CODE_RING, 8);
    call(coid, MSG_CALL);
    dispatch_unblock(ctp);
    pthread_join(thread, NULL);
    dispatch_context_free(ctp);
    dispatch_destroy(dpp);
    printf("the channel stays the program's: %s\n", ChannelDestroy(chid) == 0 ? "yes" : "no");
    return EXIT_SUCCESS;
}
