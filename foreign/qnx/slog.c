/* The system log: each entry is one line on standard error, or in the host's syslog. Tested, not proved. */
#include <stdarg.h>
#include <sys/slog.h>
#include <sys/slog2.h>
#include <syslog.h>

enum { LOG_LINE = 2048, LOG_HEAD = 160, LOG_NAME = 64, LOG_BUFFERS = 32 };

static const char *const severities[] = {"shutdown", "critical", "error",  "warning",
                                         "notice",   "info",     "debug1", "debug2"};

struct _slog2_buffer {
    char name[LOG_NAME]; /* of its set and itself; empty: the place is free */
    uint8_t level;
};

static struct _slog2_buffer buffers[LOG_BUFFERS];
static slog2_buffer_t default_buffer;

static bool is_severity(int severity) { return severity >= _SLOG_SHUTDOWN && severity <= _SLOG_DEBUG2; }

/* The host's syslog has these priorities for the severities. */
static int host_priority(int severity) {
    static const int priorities[] = {LOG_EMERG,  LOG_CRIT, LOG_ERR,   LOG_WARNING,
                                     LOG_NOTICE, LOG_INFO, LOG_DEBUG, LOG_DEBUG};
    return priorities[severity];
}

/* Writes an entry, as one line, by one write. Returns 0, or -1 and sets errno. */
static int write_entry(int severity, const char *head, const char *text) {
    const char *to = getenv("BALSAEUCHRE_SLOG");
    int length = (int)strlen(text);
    iov_t line[3];
    if (length && text[length - 1] == '\n') length--;
    if (to && !strcmp(to, "syslog")) {
        syslog(host_priority(severity), "%s%.*s", head, length, text);
        return 0;
    }
    SETIOV(&line[0], head, strlen(head));
    SETIOV(&line[1], text, length);
    SETIOV(&line[2], "\n", 1);
    return writev(STDERR_FILENO, line, 3) == -1 ? -1 : 0;
}

/* Writes an entry of slogf. Returns its length without the head. */
static int write_slog(int code, int severity, const char *text) {
    char head[LOG_HEAD];
    snprintf(head, sizeof head, "slog: %s %u.%u: ", severities[severity], _SLOG_GETMAJOR(code), _SLOG_GETMINOR(code));
    return write_entry(severity, head, text) ? -1 : (int)strlen(text);
}

int vslogf(int code, int severity, const char *format, va_list arguments) {
    char text[LOG_LINE];
    if (!is_severity(severity)) return fail(EINVAL);
    if (!format) return fail(EFAULT);
    vsnprintf(text, sizeof text, format, arguments);
    return write_slog(code, severity, text);
}

int slogf(int code, int severity, const char *format, ...) {
    va_list arguments;
    va_start(arguments, format);
    int length = vslogf(code, severity, format, arguments);
    va_end(arguments);
    return length;
}

int slogb(int code, int severity, const void *data, int size) {
    char text[LOG_LINE] = "";
    const unsigned char *bytes = data;
    if (!is_severity(severity) || size < 0) return fail(EINVAL);
    if (!data && size) return fail(EFAULT);
    for (int at = 0; at < size && at < LOG_LINE / 2 - 1; at++) sprintf(text + 2 * at, "%02x", bytes[at]);
    return write_slog(code, severity, text) == -1 ? -1 : size;
}

int slogi(int code, int severity, int nargs, ...) {
    char text[LOG_LINE] = "";
    int length = 0;
    va_list arguments;
    if (!is_severity(severity) || nargs < 0) return fail(EINVAL);
    va_start(arguments, nargs);
    for (int at = 0; at < nargs && length < LOG_LINE - 13; at++)
        length += sprintf(text + length, "%s%d", at ? " " : "", va_arg(arguments, int));
    va_end(arguments);
    return write_slog(code, severity, text);
}

/* ---- slog2 */

static bool is_config(const slog2_buffer_set_config_t *config) {
    if (!config || config->num_buffers < 1 || config->num_buffers > SLOG2_MAX_BUFFERS) return false;
    if (!config->buffer_set_name || config->verbosity_level > SLOG2_DEBUG2) return false;
    for (int at = 0; at < config->num_buffers; at++) {
        if (!config->buffer_config[at].buffer_name) return false;
    }
    return true;
}

/* Returns a free place for a buffer, or null. The caller has the lock. */
static slog2_buffer_t free_buffer(void) {
    for (int at = 0; at < LOG_BUFFERS; at++) {
        if (!*buffers[at].name) return &buffers[at];
    }
    return NULL;
}

/* Enters the buffers of a set. Returns whether there was a place for each. The caller has the lock. */
static bool enter_buffers(const slog2_buffer_set_config_t *config, slog2_buffer_t *handles) {
    for (int at = 0; at < config->num_buffers; at++) {
        handles[at] = free_buffer();
        if (!handles[at]) {
            while (at--) *handles[at]->name = 0;
            return false;
        }
        snprintf(handles[at]->name, LOG_NAME, "%s.%s", config->buffer_set_name, config->buffer_config[at].buffer_name);
        handles[at]->level = config->verbosity_level;
    }
    return true;
}

int slog2_register(const slog2_buffer_set_config_t *config, slog2_buffer_t *handles, uint32_t flags) {
    unsigned known = SLOG2_TRY_REUSE_BUFFER_SET | SLOG2_ALLOC_BUFFER_SET | SLOG2_DISCARD_ALLOC_BUFFER_SET;
    if (!is_config(config) || !handles || flags & ~known) return fail(EINVAL);
    hold();
    bool is_entered = enter_buffers(config, handles);
    if (is_entered && !default_buffer) default_buffer = handles[0];
    release();
    return is_entered ? 0 : fail(ENOMEM);
}

int slog2_reset(void) {
    hold();
    memset(buffers, 0, sizeof buffers);
    default_buffer = NULL;
    release();
    return 0;
}

slog2_buffer_t slog2_set_default_buffer(slog2_buffer_t buffer) {
    hold();
    slog2_buffer_t old = default_buffer;
    default_buffer = buffer;
    release();
    return old;
}

/* Copies a buffer, or the default buffer if it is null. Returns false if there is none. */
static bool copy_buffer(slog2_buffer_t buffer, struct _slog2_buffer *copy) {
    hold();
    if (!buffer) buffer = default_buffer;
    if (buffer) *copy = *buffer;
    release();
    return buffer && *copy->name;
}

int slog2_set_verbosity(slog2_buffer_t buffer, uint8_t level) {
    struct _slog2_buffer copy;
    if (!copy_buffer(buffer, &copy) || level > SLOG2_DEBUG2) return fail(EINVAL);
    hold();
    (buffer ? buffer : default_buffer)->level = level;
    release();
    return 0;
}

uint8_t slog2_get_verbosity(slog2_buffer_t buffer) {
    struct _slog2_buffer copy;
    return copy_buffer(buffer, &copy) ? copy.level : 0;
}

int slog2c(slog2_buffer_t buffer, uint16_t code, uint8_t severity, const char *data) {
    char head[LOG_HEAD];
    struct _slog2_buffer copy;
    if (!copy_buffer(buffer, &copy) || !is_severity(severity)) return fail(EINVAL);
    if (!data) return fail(EFAULT);
    if (severity > copy.level) return 0;
    snprintf(head, sizeof head, "slog2: %s: %s %u: ", copy.name, severities[severity], code);
    return write_entry(severity, head, data);
}

int vslog2f(slog2_buffer_t buffer, uint16_t code, uint8_t severity, const char *format, va_list arguments) {
    char text[LOG_LINE];
    if (!format) return slog2c(buffer, code, severity, NULL);
    vsnprintf(text, sizeof text, format, arguments);
    return slog2c(buffer, code, severity, text);
}

int slog2f(slog2_buffer_t buffer, uint16_t code, uint8_t severity, const char *format, ...) {
    va_list arguments;
    va_start(arguments, format);
    int result = vslog2f(buffer, code, severity, format, arguments);
    va_end(arguments);
    return result;
}
