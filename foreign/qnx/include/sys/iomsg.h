/* The types and heads of QNX's input and output messages, for servers that have to distinguish them from
 * their own messages. The functions of resource managers are missing. The numbers are this project's, in
 * QNX's range. */
#pragma GCC system_header
#ifndef BALSAEUCHRE_QNX_IOMSG_H
#define BALSAEUCHRE_QNX_IOMSG_H

#include <sys/iotypes.h>

struct _io_read {
    uint16_t type;
    uint16_t combine_len;
    uint32_t nbytes; /* the number that the client asks for */
    uint32_t xtype;
    uint32_t zero;
};

struct _io_write {
    uint16_t type;
    uint16_t combine_len;
    uint32_t nbytes; /* the number that follows */
    uint32_t xtype;
    uint32_t zero;
};

struct _io_close {
    uint16_t type;
    uint16_t combine_len;
};

typedef union {
    struct _io_read i;
} io_read_t;

typedef union {
    struct _io_write i;
} io_write_t;

typedef union {
    struct _io_close i;
} io_close_t;

#endif
