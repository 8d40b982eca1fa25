/* A server with message_attach: ranges of messages, pulses, a file, and the time when nothing happens. */
#include <errno.h>
#include <pthread.h>
#include <stdio.h>
#include <stdlib.h>
#include <string.h>
#include <sys/dispatch.h>
#include <sys/neutrino.h>
#include <unistd.h>

#define SERVER_NAME "ranges"
#define MSG_TEXT_FIRST 0x1000
#define MSG_TEXT_LAST 0x10ff
#define MSG_STATE 0x1100
#define CODE_STOP (_PULSE_CODE_MINAVAIL + 5)

typedef struct {
    uint16_t type;
    char text[30];
} text_t;

static int texts, pulses, stop;
static int pipes[2];

static int on_text(message_context_t *ctp, int code, unsigned flags, void *handle)
{
    text_t *message = (text_t *)ctp->msg;

    (void)flags;
    printf("%s %#x: %s\n", (const char *)handle, code, message->text);
    return MsgReply(ctp->rcvid, ++texts, NULL, 0);
}

static int on_state(message_context_t *ctp, int code, unsigned flags, void *handle)
{
    (void)code, (void)flags, (void)handle;
    return MsgReply(ctp->rcvid, 100 * pulses + texts, NULL, 0);
}

static int on_pulse(message_context_t *ctp, int code, unsigned flags, void *handle)
{
    (void)code, (void)flags, (void)handle;
    printf("pulse: %d\n", ctp->msg->pulse.value.sival_int);
    pulses++;
    return 0;
}

static int on_stop(message_context_t *ctp, int code, unsigned flags, void *handle)
{
    (void)ctp, (void)code, (void)flags;
    *(int *)handle = 1;
    return 0;
}

static int on_file(select_context_t *ctp, int fd, unsigned flags, void *handle)
{
    char text[16] = "";
    ssize_t length = read(fd, text, sizeof text - 1);

    (void)ctp, (void)handle;
    printf("file: %s, %zd bytes: %s\n", flags & SELECT_FLAG_READ ? "read" : "?", length, text);
    pulses++;
    return 0;
}

static void *server(void *arg)
{
    struct timespec idle = {0, 20000000};
    dispatch_t *dpp = dispatch_create();
    name_attach_t *attach;
    dispatch_context_t *ctp;
    int code, idled = 0;

    message_attach(dpp, NULL, MSG_TEXT_FIRST, MSG_TEXT_LAST, on_text, "text");
    message_attach(dpp, NULL, MSG_STATE, MSG_STATE, on_state, NULL);
    code = pulse_attach(dpp, MSG_FLAG_ALLOC_PULSE, 0, on_pulse, NULL);
    pulse_attach(dpp, 0, CODE_STOP, on_stop, &stop);
    select_attach(dpp, NULL, pipes[0], SELECT_FLAG_READ | SELECT_FLAG_REARM, on_file, NULL);
    dispatch_timeout(dpp, &idle);
    printf("the pulse's code is %d\n", code);
    if ((attach = name_attach(dpp, SERVER_NAME, 0)) == NULL)
        perror("name_attach");
    ctp = dispatch_context_alloc(dpp);
    while (!stop) {
        if (dispatch_block(ctp) != NULL)
            dispatch_handler(ctp);
        else if (errno == ETIMEDOUT)
            idled = 1;
        else
            break;
    }
    printf("the server was idle: %s\n", idled ? "yes" : "no");
    dispatch_context_free(ctp);
    name_detach(attach, 0);
    return arg;
}

static void say(int coid, int type, const char *text)
{
    text_t message = {(uint16_t)type, ""};
    long status;

    strcpy(message.text, text);
    status = MsgSend(coid, &message, sizeof message, NULL, 0);
    printf("%s: %ld\n", status == -1 ? strerror(errno) : "status", status);
}

int main(void)
{
    pthread_t thread;
    uint16_t state = MSG_STATE;
    int coid;

    if (pipe(pipes) == -1)
        return EXIT_FAILURE;
    setvbuf(stdout, NULL, _IOLBF, 0);
    pthread_create(&thread, NULL, server, NULL);
    while ((coid = name_open(SERVER_NAME, 0)) == -1)
        delay(1);
    say(coid, MSG_TEXT_FIRST, "the first");
    say(coid, MSG_TEXT_LAST, "the last");
    say(coid, MSG_TEXT_LAST + 2, "of no range");
    MsgSendPulse(coid, 10, 0, 42);
    while (MsgSend(coid, &state, sizeof state, NULL, 0) != 102)
        delay(1);
    if (write(pipes[1], "hello", 5) != 5)
        return EXIT_FAILURE;
    while (MsgSend(coid, &state, sizeof state, NULL, 0) != 202)
        delay(1);
    delay(100);
    MsgSendPulse(coid, 10, CODE_STOP, 0);
    pthread_join(thread, NULL);
    printf("the name is gone: %s\n", name_open(SERVER_NAME, 0) == -1 ? strerror(errno) : "no");
    return EXIT_SUCCESS;
}
