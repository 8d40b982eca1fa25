/* Commands to devices, which a server gets as messages. */
#pragma GCC system_header
#ifndef BALSAEUCHRE_QNX_DEVCTL_H
#define BALSAEUCHRE_QNX_DEVCTL_H

#include <stddef.h>
#include <stdint.h>
#include <sys/missing.h>

#ifdef __cplusplus
extern "C" {
#endif

/* A command has a class, a number, the size of its data, and the direction of the data: to the server, from
 * it, or both. */
#define _POSIX_DEVDIR_NONE 0u
#define _POSIX_DEVDIR_TO 0x80000000u
#define _POSIX_DEVDIR_FROM 0x40000000u
#define _POSIX_DEVDIR_TOFROM (_POSIX_DEVDIR_TO | _POSIX_DEVDIR_FROM)
#define DEVDIR_NONE _POSIX_DEVDIR_NONE
#define DEVDIR_TO _POSIX_DEVDIR_TO
#define DEVDIR_FROM _POSIX_DEVDIR_FROM
#define DEVDIR_TOFROM _POSIX_DEVDIR_TOFROM
#define NEUTRINO_DCMD(class, number, size, direction) \
    ((int)((unsigned)(direction) | ((unsigned)(size)&0x3fffu) << 16 | ((unsigned)(class) & 0xffu) << 8 | \
           ((unsigned)(number)&0xffu)))
#define __DION(class, number) NEUTRINO_DCMD(class, number, 0, _POSIX_DEVDIR_NONE)
#define __DIOF(class, number, type) NEUTRINO_DCMD(class, number, sizeof(type), _POSIX_DEVDIR_FROM)
#define __DIOT(class, number, type) NEUTRINO_DCMD(class, number, sizeof(type), _POSIX_DEVDIR_TO)
#define __DIOTF(class, number, type) NEUTRINO_DCMD(class, number, sizeof(type), _POSIX_DEVDIR_TOFROM)
#define get_device_direction(command) ((unsigned)(command)&_POSIX_DEVDIR_TOFROM)

/* Classes of commands. */
#define _DCMD_ALL 1
#define _DCMD_FSYS 2
#define _DCMD_BLK 3
#define _DCMD_CHR 4
#define _DCMD_NET 5
#define _DCMD_MEM 6
#define _DCMD_INPUT 7
#define _DCMD_PROC 8
#define _DCMD_DUMPER 9
#define _DCMD_NETMGR 10
#define _DCMD_MISC 11
#define _DCMD_MEDIA 12

/* The head of an _IO_DEVCTL message, before the data, and of its reply. */
struct _io_devctl {
    uint16_t type;
    uint16_t combine_len;
    int32_t dcmd;
    uint32_t nbytes;
    int32_t zero;
};

struct _io_devctl_reply {
    uint32_t zero;
    int32_t ret_val;
    uint32_t nbytes;
    int32_t zero2;
};

typedef union {
    struct _io_devctl i;
    struct _io_devctl_reply o;
} io_devctl_t;

#define _DEVCTL_DATA(message) ((void *)(sizeof(message) + (char *)(&(message))))

/* Sends a command over a connection, as an _IO_DEVCTL message, and copies the reply's data back. filedes is a
 * coid of name_open or ConnectAttach, and no file of the host. *dev_info_ptr, if dev_info_ptr isn't null, gets
 * ret_val. Returns EOK or an error: EFAULT (no data, and n_bytes isn't 0), EOVERFLOW (n_bytes has over 32
 * bits), and the errors of MsgSend. */
int devctl(int filedes, int dcmd, void *dev_data_ptr, size_t n_bytes, int *dev_info_ptr);

NEUTRINO_MISSING(devctlv);
NEUTRINO_MISSING(posix_devctl);

#ifdef __cplusplus
}
#endif

#endif
