/* The protocol between a program and the daemon. Tested, not proved.
 *
 * The sockets have the type SOCK_SEQPACKET. A program has one socket for itself and one for each of its
 * threads. When the program's own socket ends, the program has ended. A program's packet is a request (struct
 * wire_ask) and its bytes. The daemon's packet is an answer (struct wire_answer) and its bytes. The answer to
 * OP_THREAD brings two files: the thread's box, a mapping that thread and daemon share, and its bell, an
 * eventfd. From then on the thread puts its requests into the box, and sends no more packets.
 */
#ifndef BALSAEUCHRE_WIRE_H
#define BALSAEUCHRE_WIRE_H

#include "balsaeuchre.h"
#include "sys/neutrino.h"

enum { WIRE_VERSION = 4, WIRE_MOST = 1 << 20, WIRE_NAME = 256, WIRE_GROUPS = 8 };

enum wire_op {
    OP_PROCESS = 1, /* the first request of a program's socket: number is WIRE_VERSION; the result is its
                       scoid. states, flags and pid are an earlier daemon's last chid, coid and rcvid, which
                       this daemon doesn't give again */
    OP_THREAD,      /* the first request of a thread's socket: number is its tid, value its priority */
    OP_CALL,        /* a call: the field request, and in number the id that the call names; the bytes: sent,
                       then a Send's reply buffer */
    OP_CANCEL,      /* unblock the thread whose tid is number, in this call or in later ones */
    OP_NAME,        /* give a channel a name: number is its chid, the bytes are the name */
    OP_UNNAME,      /* remove the name of the channel whose chid is number */
    OP_FIND,        /* find the channel of a name, which is the bytes; the result is its
                       chid, and info has its pid */
    OP_CLIENT,      /* number is an scoid; the bytes of the answer are a wire_client */
    OP_SENDER,      /* only on a program's own socket: number is an rcvid; the result is the pid of its
                       sender's program, and the answer brings its pidfd */
    OP_EVENT,       /* send a pulse to the program whose message has the rcvid number (0: to itself), over
                       that program's connection request.id */
    OP_DEATH,       /* the thread whose tid is number has ended */
    OP_UNBLOCK,     /* unblock the sender of the held message whose rcvid is number */
    OP_SHOW         /* the bytes of the answer are the text that pidin prints */
};

/* A program's scoid has both bits of WIRE_SCOID, which no coid has. Below them are its place's
 * generation and the place. */
enum { WIRE_SCOID = 0x60000000, SLOT_BITS = 5, GENERATION_BITS = 24 };

enum { WIRE_OWN_PRIORITY = 1, WIRE_CANCELS = 2, WIRE_SIDE = 4, WIRE_TESTS = 8 };

struct wire_ask {
    uint32_t op;
    uint32_t call; /* counts the calls of a thread */
    int32_t number;
    int32_t pid;    /* of a ConnectAttach; of OP_THREAD the host's tid */
    int32_t states; /* the states in which the call times out, after time nanoseconds */
    uint32_t flags;
    uint64_t time;
    uint64_t value; /* of a pulse; the flags of a ChannelCreate */
    uint32_t sent_len, room_len;
    balsaeuchre_request request;
};

/* Where an error comes from: the call was cancelled; the server replied with it. */
enum { WIRE_CUT = 1, WIRE_CODE };

struct wire_answer {
    int32_t error;
    uint32_t length; /* of the bytes after it */
    int64_t result;
    uint32_t count; /* bytes of a reply; of a State the chid on which the thread is blocked; of
                       EAGAIN the number of places */
    uint8_t how;
    uint8_t priority; /* of a pulse, or a State */
    struct _msg_info info;
};

/* The word of a box. OPEN: the last request has no answer yet. ASLEEP: its thread also sleeps at the word.
 * ANSWERED: the request has its answer. AT_SOCKET: the thread sleeps at its socket, to which the daemon
 * sends a byte after the answer. */
enum { WIRE_OPEN, WIRE_ASLEEP, WIRE_ANSWERED, WIRE_AT_SOCKET };

/* A box has only bytes of one request: until the answer the bytes of the request, and
 * then the bytes of the answer. */
struct wire_box {
    _Atomic uint32_t asked;    /* changes with each request */
    _Atomic uint32_t given_up; /* the call that its thread gives up */
    struct wire_ask ask;
    _Alignas(64) _Atomic uint32_t word;
    _Atomic uint32_t rings; /* the daemon sleeps or is about to, so the bell has to be rung */
    struct wire_answer answer;
    uint8_t bytes[2 * WIRE_MOST];
};

struct wire_client {
    int32_t pid;
    uint32_t uid, gid, ngroups;
    uint32_t groups[WIRE_GROUPS];
};

#endif
