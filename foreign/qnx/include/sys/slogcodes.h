/* The severities and the codes of slogf. The major codes are names only: a program may use any number. */
#pragma GCC system_header
#ifndef BALSAEUCHRE_QNX_SLOGCODES_H
#define BALSAEUCHRE_QNX_SLOGCODES_H

#define _SLOG_SHUTDOWN 0
#define _SLOG_CRITICAL 1
#define _SLOG_ERROR 2
#define _SLOG_WARNING 3
#define _SLOG_NOTICE 4
#define _SLOG_INFO 5
#define _SLOG_DEBUG1 6
#define _SLOG_DEBUG2 7

/* A code of a major code, 0 to 65,535, and a minor code, 0 to 65,535. */
#define _SLOG_SETCODE(major, minor) ((int)((unsigned)(major) << 16 | ((unsigned)(minor)&0xffffu)))
#define _SLOG_GETMAJOR(code) ((unsigned)(code) >> 16)
#define _SLOG_GETMINOR(code) ((unsigned)(code)&0xffffu)

#define _SLOGC_TEST 1
#define _SLOGC_AUDIO 2
#define _SLOGC_INPUT 3
#define _SLOGC_CONSOLE 4
#define _SLOGC_CHAR 5
#define _SLOGC_BLOCK 6
#define _SLOGC_FSYS_QNX4 7
#define _SLOGC_FSYS_DOS 8
#define _SLOGC_NETWORK 14
#define _SLOGC_GRAPHICS 16
#define _SLOGC_PCI 17
#define _SLOGC_PROC 18
#define _SLOGC_MEDIA 20
#define _SLOGC_PRIVATE_START 10000
#define _SLOGC_PRIVATE_END 19999

#endif
