/* The system log's other functions: bytes and numbers, functions that take a va_list, and buffers with levels of
 * their own. Standard error is a pipe, so that the program can show the entries. */
#include <errno.h>
#include <stdarg.h>
#include <stdio.h>
#include <stdlib.h>
#include <string.h>
#include <sys/neutrino.h>
#include <sys/slog.h>
#include <sys/slog2.h>
#include <sys/slogcodes.h>
#include <unistd.h>

#define LOG_CODE _SLOG_SETCODE(_SLOGC_TEST, 1)

/* A shop's own function for its entries, in both logs. */
static void note(slog2_buffer_t buffer, const char *format, ...) __attribute__((format(printf, 2, 3)));

static void note(slog2_buffer_t buffer, const char *format, ...)
{
    va_list args;

    va_start(args, format);
    vslogf(LOG_CODE, _SLOG_NOTICE, format, args);
    va_end(args);
    va_start(args, format);
    vslog2f(buffer, 2, SLOG2_NOTICE, format, args);
    va_end(args);
}

static void register_buffers(slog2_buffer_t *buffers)
{
    slog2_buffer_set_config_t config;

    memset(&config, 0, sizeof config);
    config.buffer_set_name = "shop";
    config.num_buffers = 2;
    config.verbosity_level = SLOG2_WARNING;
    config.buffer_config[0].buffer_name = "orders";
    config.buffer_config[0].num_pages = 4;
    config.buffer_config[1].buffer_name = "bills";
    config.buffer_config[1].num_pages = 1;
    if (slog2_register(&config, buffers, 0) == -1)
        perror("slog2_register");
}

int main(void)
{
    slog2_buffer_t buffers[2];
    char text[1000];
    int pipes[2], chid = ChannelCreate(0);

    unsetenv("BALSAEUCHRE_SLOG");
    if (chid == -1 || pipe(pipes) == -1 || dup2(pipes[1], STDERR_FILENO) == -1)
        return EXIT_FAILURE;
    register_buffers(buffers);
    printf("bytes: %d\n", slogb(LOG_CODE, _SLOG_ERROR, "\x01\xff", 2));
    printf("numbers: %s\n", slogi(LOG_CODE, _SLOG_INFO, 3, 1, -2, 3) > 0 ? "written" : strerror(errno));
    slog2c(buffers[0], 1, SLOG2_INFO, "too little to be written");
    slog2_set_verbosity(buffers[0], SLOG2_INFO);
    printf("levels: %d, %d\n", slog2_get_verbosity(buffers[0]), slog2_get_verbosity(buffers[1]));
    slog2c(buffers[0], 1, SLOG2_INFO, "an order");
    slog2c(SLOG2_DEFAULT_BUFFER, 1, SLOG2_ERROR, "to the first buffer");
    printf("the old default: %s\n", slog2_set_default_buffer(buffers[1]) == buffers[0] ? "orders" : "?");
    note(SLOG2_DEFAULT_BUFFER, "%d bills", 12);
    slog2_set_verbosity(buffers[1], SLOG2_DEBUG1);
    note(SLOG2_DEFAULT_BUFFER, "%d bills", 13);
    slog2_reset();
    if (slog2c(buffers[0], 1, SLOG2_ERROR, "to no buffer") == -1)
        printf("after slog2_reset: %s\n", strerror(errno));
    ssize_t length = read(pipes[0], text, sizeof text - 1);
    text[length > 0 ? length : 0] = 0;
    fputs(text, stdout);
    ChannelDestroy(chid);
    return EXIT_SUCCESS;
}
