/* The system log in buffers. Each entry is a line on standard error, or in the host's syslog, as in
 * sys/slog.h:
 *
 *   slog2: server.events: info 4: a client has connected
 *
 * It has the name of the buffer's set and of the buffer, the severity, the code and the text. No entry is
 * kept in memory, so the number of pages changes nothing, and there is no slog2info. */
#pragma GCC system_header
#ifndef BALSAEUCHRE_QNX_SLOG2_H
#define BALSAEUCHRE_QNX_SLOG2_H

#include <stdarg.h>
#include <stdint.h>
#include <stdio.h>
#include <sys/missing.h>

#ifdef __cplusplus
extern "C" {
#endif

#define SLOG2_SHUTDOWN 0
#define SLOG2_CRITICAL 1
#define SLOG2_ERROR 2
#define SLOG2_WARNING 3
#define SLOG2_NOTICE 4
#define SLOG2_INFO 5
#define SLOG2_DEBUG1 6
#define SLOG2_DEBUG2 7

#define SLOG2_MAX_BUFFERS 4
#define SLOG2_DEFAULT_BUFFER ((slog2_buffer_t)0)
#define SLOG2_TRY_REUSE_BUFFER_SET 1u /* these three change nothing, since no buffer has memory */
#define SLOG2_ALLOC_BUFFER_SET 2u
#define SLOG2_DISCARD_ALLOC_BUFFER_SET 4u

typedef struct _slog2_buffer *slog2_buffer_t;

typedef struct {
    const char *buffer_name;
    int num_pages;
} slog2_buffer_config_t;

typedef struct {
    int num_buffers;
    const char *buffer_set_name;
    uint8_t verbosity_level; /* the least important severity that is written */
    slog2_buffer_config_t buffer_config[SLOG2_MAX_BUFFERS];
    uint32_t max_retries; /* not used */
} slog2_buffer_set_config_t;

/* Registers a set of buffers, and writes their handles. The first buffer becomes the default, unless the
 * program has a default. Returns 0, or -1: EINVAL (no config, no handles, not 1 to 4 buffers, a name that is
 * missing, or another flag), ENOMEM. */
int slog2_register(const slog2_buffer_set_config_t *config, slog2_buffer_t *handles, uint32_t flags);

/* Forgets all buffers. Their handles can't be used any more. Returns 0. */
int slog2_reset(void);

/* Makes a buffer the default, for entries with the handle SLOG2_DEFAULT_BUFFER. Returns the old default. */
slog2_buffer_t slog2_set_default_buffer(slog2_buffer_t buffer);

/* Set and return the least important severity that a buffer writes. slog2_set_verbosity: EINVAL (no buffer,
 * or the level is above 7). slog2_get_verbosity returns 0 without a buffer. */
int slog2_set_verbosity(slog2_buffer_t buffer, uint8_t level);
uint8_t slog2_get_verbosity(slog2_buffer_t buffer);

/* Write an entry, unless the buffer's level leaves it out. Return 0, or -1: EINVAL (no buffer, or the severity
 * isn't 0 to 7), EFAULT (no text), and the errors of write. */
int slog2c(slog2_buffer_t buffer, uint16_t code, uint8_t severity, const char *data);
int slog2f(slog2_buffer_t buffer, uint16_t code, uint8_t severity, const char *format, ...)
    __attribute__((format(printf, 4, 5)));
int vslog2f(slog2_buffer_t buffer, uint16_t code, uint8_t severity, const char *format, va_list arguments)
    __attribute__((format(printf, 4, 0)));

NEUTRINO_MISSING(slog2_dump_logs_to_file);
NEUTRINO_MISSING(slog2_find_buffer);
NEUTRINO_MISSING(slog2_parse_all);
NEUTRINO_MISSING(slog2fa);

#ifdef __cplusplus
}
#endif

#endif
