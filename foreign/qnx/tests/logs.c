/* The system log, with each of its errors. */
#include "tests.h"

#include <fcntl.h>
#include <sys/slog.h>
#include <sys/slog2.h>
#include <syslog.h>

static int pipe_of_log[2], saved_error;

/* From here to read_log standard error is a pipe. */
static void catch_log(void) {
    fflush(stderr);
    saved_error = dup(STDERR_FILENO);
    check(saved_error != -1 && pipe(pipe_of_log) == 0 && dup2(pipe_of_log[1], STDERR_FILENO) == STDERR_FILENO);
    close(pipe_of_log[1]);
}

static void read_log(const char *expected) {
    static char text[8192];
    check(dup2(saved_error, STDERR_FILENO) == STDERR_FILENO && close(saved_error) == 0);
    size_t length = 0;
    for (ssize_t count; (count = read(pipe_of_log[0], text + length, sizeof text - 1 - length)) > 0;)
        length += (size_t)count;
    text[length] = 0;
    close(pipe_of_log[0]);
    if (strcmp(text, expected) != 0) fprintf(stderr, "expected:\n%sfound:\n%s", expected, text);
    check(strcmp(text, expected) == 0);
}

static void lines_of_slog(void) {
    static const unsigned char bytes[] = {0, 1, 0xab, 0xff};
    catch_log();
    int first = slogf(_SLOG_SETCODE(_SLOGC_PROC, 3), _SLOG_WARNING, "disk %d is %s", 7, "slow");
    int second = slogf(_SLOG_SETCODE(65535, 65535), _SLOG_SHUTDOWN, "a newline\n");
    int third = slogb(_SLOG_SETCODE(1, 2), _SLOG_DEBUG2, bytes, sizeof bytes);
    int fourth = slogi(_SLOG_SETCODE(1, 2), _SLOG_INFO, 3, 1, -2, 30);
    int fifth = slogf(0, _SLOG_ERROR, "%s", ""), sixth = slogi(0, _SLOG_ERROR, 0), seventh = slogb(0, 0, NULL, 0);
    read_log("slog: warning 18.3: disk 7 is slow\nslog: shutdown 65535.65535: a newline\n"
             "slog: debug2 1.2: 0001abff\nslog: info 1.2: 1 -2 30\nslog: error 0.0: \nslog: error 0.0: \n"
             "slog: shutdown 0.0: \n");
    check(first == 14 && second == 10 && third == 4 && fourth == 7 && fifth == 0 && sixth == 0 && seventh == 0);
}

static void longest_line(void) {
    static char text[5000], expected[5000];
    memset(text, 'x', sizeof text - 1);
    catch_log();
    int length = slogf(_SLOG_SETCODE(1, 1), _SLOG_NOTICE, "%s", text);
    int of_bytes = slogb(_SLOG_SETCODE(1, 1), _SLOG_NOTICE, text, sizeof text);
    snprintf(expected, sizeof expected, "slog: notice 1.1: %.2047s\nslog: notice 1.1: ", text);
    for (int at = 0; at < 1023; at++) strcat(expected, "78");
    strcat(expected, "\n");
    read_log(expected);
    check(length == 2047 && of_bytes == sizeof text);
}

/* With the environment's word entries go to syslog, which also prints to standard error if it is opened so. */
static void to_syslog(void) {
    openlog("ident", LOG_PERROR, LOG_USER);
    check(setenv("BALSAEUCHRE_SLOG", "syslog", 1) == 0);
    catch_log();
    int length = slogf(_SLOG_SETCODE(1, 2), _SLOG_CRITICAL, "to the host\n");
    read_log("ident: slog: critical 1.2: to the host\n");
    check(length == 12 && setenv("BALSAEUCHRE_SLOG", "stderr", 1) == 0);
    catch_log();
    check(slogf(_SLOG_SETCODE(1, 2), _SLOG_CRITICAL, "not there") == 9);
    read_log("slog: critical 1.2: not there\n");
    check(unsetenv("BALSAEUCHRE_SLOG") == 0);
    closelog();
}

static void errors_of_slog(void) {
    const char *none = NULL;
    fails(slogf(1, -1, "%s", ""), EINVAL);
    fails(slogf(1, 8, "%s", ""), EINVAL);
    fails(slogf(1, 1, none, ""), EFAULT);
    fails(slogb(1, 8, "", 1), EINVAL);
    fails(slogb(1, 1, "", -1), EINVAL);
    fails(slogb(1, 1, NULL, 1), EFAULT);
    fails(slogi(1, 8, 1, 1), EINVAL);
    fails(slogi(1, 1, -1), EINVAL);
    int saved = dup(STDERR_FILENO);
    check(saved != -1 && close(STDERR_FILENO) == 0);
    int result = slogf(1, 1, "%s", "to a closed file"), error = errno;
    check(dup2(saved, STDERR_FILENO) == STDERR_FILENO && close(saved) == 0 && result == -1 && error == EBADF);
}

void logs(void) {
    check(_SLOG_GETMAJOR(_SLOG_SETCODE(18, 3)) == 18 && _SLOG_GETMINOR(_SLOG_SETCODE(18, 3)) == 3);
    lines_of_slog();
    longest_line();
    to_syslog();
    errors_of_slog();
}

static slog2_buffer_t registered[2];
static slog2_buffer_set_config_t set = {.num_buffers = 2,
                                        .buffer_set_name = "server",
                                        .verbosity_level = SLOG2_INFO,
                                        .buffer_config = {{"events", 7}, {"traffic", 1}}};

static void lines_of_slog2(void) {
    catch_log();
    check(slog2f(registered[0], 4, SLOG2_INFO, "client %d\n", 3) == 0);
    check(slog2c(registered[1], 65535, SLOG2_ERROR, "lost %d") == 0); /* no format */
    check(slog2c(SLOG2_DEFAULT_BUFFER, 0, SLOG2_SHUTDOWN, "") == 0);
    check(slog2f(registered[0], 4, SLOG2_DEBUG1, "too much") == 0);
    check(slog2_set_verbosity(registered[1], SLOG2_DEBUG2) == 0 && slog2_get_verbosity(registered[1]) == SLOG2_DEBUG2);
    check(slog2f(registered[1], 4, SLOG2_DEBUG2, "all") == 0);
    check(slog2_set_default_buffer(registered[1]) == registered[0] && slog2c(NULL, 1, SLOG2_DEBUG1, "both") == 0);
    check(slog2_set_verbosity(NULL, SLOG2_ERROR) == 0 && slog2c(registered[1], 1, SLOG2_INFO, "no more") == 0);
    read_log("slog2: server.events: info 4: client 3\nslog2: server.traffic: error 65535: lost %d\n"
             "slog2: server.events: shutdown 0: \nslog2: server.traffic: debug2 4: all\n"
             "slog2: server.traffic: debug1 1: both\n");
}

static void errors_of_slog2(void) {
    slog2_buffer_t handles[SLOG2_MAX_BUFFERS];
    slog2_buffer_set_config_t wrong = set;
    const char *none = NULL;
    fails(slog2_register(NULL, handles, 0), EINVAL);
    fails(slog2_register(&set, NULL, 0), EINVAL);
    fails(slog2_register(&set, handles, 0x100), EINVAL);
    wrong.num_buffers = 0;
    fails(slog2_register(&wrong, handles, 0), EINVAL);
    wrong.num_buffers = SLOG2_MAX_BUFFERS + 1;
    fails(slog2_register(&wrong, handles, 0), EINVAL);
    wrong.num_buffers = 3; /* the third has no name */
    fails(slog2_register(&wrong, handles, 0), EINVAL);
    wrong = set;
    wrong.buffer_set_name = NULL;
    fails(slog2_register(&wrong, handles, 0), EINVAL);
    wrong = set;
    wrong.verbosity_level = 8;
    fails(slog2_register(&wrong, handles, 0), EINVAL);
    fails(slog2c(registered[0], 1, 8, ""), EINVAL);
    fails(slog2c(registered[0], 1, SLOG2_ERROR, NULL), EFAULT);
    fails(slog2f(registered[0], 1, SLOG2_ERROR, none, ""), EFAULT);
    fails(slog2_set_verbosity(registered[0], 8), EINVAL);
    for (int sets = 1; sets < 16; sets++) check(slog2_register(&set, handles, SLOG2_ALLOC_BUFFER_SET) == 0);
    fails(slog2_register(&set, handles, 0), ENOMEM);
}

void logs_in_buffers(void) {
    fails(slog2c(NULL, 1, SLOG2_ERROR, ""), EINVAL); /* no default */
    fails(slog2_set_verbosity(NULL, 1), EINVAL);
    check(slog2_get_verbosity(NULL) == 0 && slog2_register(&set, registered, 0) == 0);
    lines_of_slog2();
    errors_of_slog2();
    check(slog2_reset() == 0);
    fails(slog2c(registered[0], 1, SLOG2_ERROR, ""), EINVAL);
    check(slog2_register(&set, registered, 0) == 0 && slog2_reset() == 0);
}
