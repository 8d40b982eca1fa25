/* The system log. Each entry is a line on standard error:
 *
 *   slog: warning 18.3: the disk is slow
 *
 * It has the severity, the major and the minor code, and the text without a newline at its end. With
 * BALSAEUCHRE_SLOG=syslog in the environment the entry goes to the host's syslog in the same form. There is no
 * slogger, and so no sloginfo. */
#pragma GCC system_header
#ifndef BALSAEUCHRE_QNX_SLOG_H
#define BALSAEUCHRE_QNX_SLOG_H

#include <stdarg.h>
#include <sys/slogcodes.h>

#ifdef __cplusplus
extern "C" {
#endif

/* Write an entry: a formatted text, bytes in hexadecimal, or nargs numbers of type int. Return the number of
 * bytes that the entry has without its head, at most 2,047 of a text, or -1: EINVAL (the severity isn't 0 to
 * 7, or the size or nargs is negative), EFAULT (no format, no bytes), and the errors of write. */
int slogf(int code, int severity, const char *format, ...) __attribute__((format(printf, 3, 4)));
int vslogf(int code, int severity, const char *format, va_list arguments) __attribute__((format(printf, 3, 0)));
int slogb(int code, int severity, const void *data, int size);
int slogi(int code, int severity, int nargs, ...);

#ifdef __cplusplus
}
#endif

#endif
