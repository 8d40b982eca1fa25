/* The part of sys/iomsg.h that sys/dispatch.h also has. A program that doesn't include sys/iomsg.h may have
 * an io_read_t of its own. */
#pragma GCC system_header
#ifndef BALSAEUCHRE_QNX_IOTYPES_H
#define BALSAEUCHRE_QNX_IOTYPES_H

#include <stdint.h>

#define _IO_BASE 0x100
#define _IO_CONNECT 0x100 /* sent by name_open */
#define _IO_READ 0x101
#define _IO_WRITE 0x102
#define _IO_CLOSE 0x103
#define _IO_STAT 0x104
#define _IO_NOTIFY 0x105
#define _IO_DEVCTL 0x106
#define _IO_PATHCONF 0x108
#define _IO_LSEEK 0x109
#define _IO_CHMOD 0x10a
#define _IO_CHOWN 0x10b
#define _IO_UTIME 0x10c
#define _IO_OPENFD 0x10d
#define _IO_FDINFO 0x10e
#define _IO_LOCK 0x10f
#define _IO_SPACE 0x110
#define _IO_SHUTDOWN 0x111
#define _IO_MMAP 0x112
#define _IO_MSG 0x113
#define _IO_DUP 0x115
#define _IO_SYNC 0x118
#define _IO_MAX 0x1ff
#define _IOMGR_PRIVATE_BASE 0xf000
#define _IOMGR_PRIVATE_MAX 0xffff
#define _IO_COMBINE_FLAG 0x8000

/* The requests of an _IO_CONNECT message. name_open requests _IO_CONNECT_OPEN. */
enum _io_connect_subtypes {
    _IO_CONNECT_COMBINE,
    _IO_CONNECT_COMBINE_CLOSE,
    _IO_CONNECT_OPEN,
    _IO_CONNECT_UNLINK,
    _IO_CONNECT_RENAME,
    _IO_CONNECT_MKNOD,
    _IO_CONNECT_READLINK,
    _IO_CONNECT_LINK,
    _IO_CONNECT_RSVD_UNBLOCK,
    _IO_CONNECT_MOUNT
};

struct _io_connect {
    uint16_t type;
    uint16_t subtype;
    uint32_t file_type;
    uint16_t reply_max;
    uint16_t entry_max;
    uint32_t key;
    uint32_t handle;
    uint32_t ioflag;
    uint32_t mode;
    uint16_t sflag;
    uint16_t access;
    uint16_t zero;
    uint16_t path_len; /* with the closing 0 */
    uint8_t eflag;
    uint8_t extra_type;
    uint16_t extra_len;
    char path[1]; /* and more bytes after it; name_open sends an empty path */
};

/* The head of an _IO_MSG message. */
struct _io_msg {
    uint16_t type;
    uint16_t combine_len;
    uint16_t mgrid;
    uint16_t subtype;
};

typedef union {
    struct _io_msg i;
} io_msg_t;

#endif
