/* A logger: a server whose clients' lines go to the system log, by slogf and by slog2. The entries go to
 * standard error, or to syslog with BALSAEUCHRE_SLOG=syslog. */
#include <errno.h>
#include <pthread.h>
#include <stdio.h>
#include <stdlib.h>
#include <string.h>
#include <sys/neutrino.h>
#include <sys/procmgr.h>
#include <sys/slog.h>
#include <sys/slog2.h>
#include <sys/slogcodes.h>
#include <unistd.h>

#define LOG_CODE _SLOG_SETCODE(_SLOGC_PRIVATE_START + 5, 3)

typedef struct {
    uint16_t type;
    uint16_t severity;
    char text[60];
} line_t;

typedef union {
    struct _pulse pulse;
    line_t line;
} message_t;

static int chid;

static void *logger(void *arg)
{
    message_t msg;
    slog2_buffer_t buffers[1];
    slog2_buffer_set_config_t config;
    long lines = 0;
    int rcvid;

    memset(&config, 0, sizeof config);
    config.buffer_set_name = "logger";
    config.num_buffers = 1;
    config.verbosity_level = SLOG2_INFO;
    config.buffer_config[0].buffer_name = "all";
    config.buffer_config[0].num_pages = 7;
    if (slog2_register(&config, buffers, 0) == -1)
        perror("slog2_register");
    while ((rcvid = MsgReceive(chid, &msg, sizeof msg, NULL)) > 0) {
        slog2f(buffers[0], 1, (uint8_t)msg.line.severity, "%s", msg.line.text);
        MsgReply(rcvid, slogf(LOG_CODE, msg.line.severity, "line %ld: %s", ++lines, msg.line.text), NULL, 0);
    }
    return arg;
}

/* Reads what was written to standard error since it became a pipe. */
static void show(int from)
{
    char text[1000];
    ssize_t length = read(from, text, sizeof text - 1);

    text[length > 0 ? length : 0] = 0;
    fputs(text, stdout);
}

int main(void)
{
    static const char *const texts[] = {"started", "the disk is slow", "a detail"};
    static const uint16_t severities[] = {_SLOG_INFO, _SLOG_WARNING, _SLOG_DEBUG1};
    pthread_t thread;
    int coid, pipes[2];

    unsetenv("BALSAEUCHRE_SLOG");
    if (procmgr_ability(0, PROCMGR_ADN_ROOT | PROCMGR_AOP_ALLOW | PROCMGR_AID_IO, PROCMGR_AID_EOL) != EOK)
        perror("procmgr_ability");
    if (pipe(pipes) == -1 || dup2(pipes[1], STDERR_FILENO) == -1)
        return EXIT_FAILURE;
    chid = ChannelCreate(0);
    coid = ConnectAttach(0, 0, chid, _NTO_SIDE_CHANNEL, 0);
    pthread_create(&thread, NULL, logger, NULL);
    for (int i = 0; i < 3; i++) {
        line_t line = {1, severities[i], ""};
        strcpy(line.text, texts[i]);
        printf("%ld bytes\n", MsgSend(coid, &line, sizeof line, NULL, 0));
        show(pipes[0]);
    }
    printf("a wrong severity: %s\n", slogf(LOG_CODE, 8, "nothing") == -1 ? strerror(errno) : "?");
    ChannelDestroy(chid);
    pthread_join(thread, NULL);
    return EXIT_SUCCESS;
}
