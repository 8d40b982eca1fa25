/* noise SOCKET PACKETS SEED: sends packets that no program would send, as a process and as its threads.
 * Some are random bytes, truncated, too long, or have wrong lengths. Others are calls where none is
 * allowed, or have answers that are never read. Such requests also go into the threads' boxes, and change
 * while the daemon reads them. */
#define _GNU_SOURCE
#include "wire.h"

#include <errno.h>
#include <stdbool.h>
#include <stdatomic.h>
#include <stdio.h>
#include <stdlib.h>
#include <string.h>
#include <sys/mman.h>
#include <sys/socket.h>
#include <sys/un.h>
#include <unistd.h>

enum { SOCKETS = 4, ROOM = sizeof(struct wire_ask) + 4096 };

/* The first socket is the process's own. */
static struct {
    int fd, left, bell;
    uint32_t call;
    struct wire_box *box;
} all[SOCKETS];
static long closed, answered;

static int connect_to(const char *path) {
    struct sockaddr_un address = {.sun_family = AF_UNIX};
    strncpy(address.sun_path, path, sizeof address.sun_path - 1);
    for (;;) {
        int fd = socket(AF_UNIX, SOCK_SEQPACKET, 0);
        if (fd != -1 && !connect(fd, (struct sockaddr *)&address, sizeof address)) return fd;
        if (errno != EAGAIN) exit(fprintf(stderr, "connect: %s\n", strerror(errno)));
        close(fd);
        usleep(1000);
    }
}

static int below(int most) { return rand() % most; }

/* Maps the box that an answer brings. */
static void open_box(int at, struct msghdr *in) {
    const struct cmsghdr *rights = CMSG_FIRSTHDR(in);
    int files[2];
    if (!rights || rights->cmsg_len != CMSG_LEN(sizeof files)) return;
    memcpy(files, CMSG_DATA(rights), sizeof files);
    all[at].bell = files[1];
    all[at].box = mmap(NULL, sizeof *all[at].box, PROT_READ | PROT_WRITE, MAP_SHARED, files[0], 0);
    if (all[at].box == MAP_FAILED) exit(fprintf(stderr, "mmap: %s\n", strerror(errno)));
    if (!ftruncate(files[0], 0)) exit(fprintf(stderr, "a box can be cut\n"));
    close(files[0]);
}

/* Opens a socket again, and in most cases joins. */
static void reopen(const char *path, int at) {
    struct wire_ask ask = {.op = at ? OP_THREAD : OP_PROCESS, .number = at ? at : WIRE_VERSION, .value = 10};
    char room[ROOM], rights[100];
    struct iovec part = {room, sizeof room};
    struct msghdr in = {.msg_iov = &part, .msg_iovlen = 1, .msg_control = rights, .msg_controllen = sizeof rights};
    if (all[at].fd) close(all[at].fd);
    if (all[at].box) {
        munmap(all[at].box, sizeof *all[at].box);
        close(all[at].bell);
    }
    all[at].box = NULL;
    all[at].fd = connect_to(path);
    all[at].left = 1 + below(100);
    if (below(20) == 0 || send(all[at].fd, &ask, sizeof ask, MSG_NOSIGNAL) < 0) return;
    if (recvmsg(all[at].fd, &in, 0) <= 0) return;
    answered++;
    open_box(at, &in);
}

/* Returns a request in which each field is right, nearly right, or random. */
static struct wire_ask any_ask(int at) {
    struct wire_ask ask;
    for (size_t byte = 0; byte < sizeof ask; byte++) ((uint8_t *)&ask)[byte] = (uint8_t)(below(3) ? 0 : rand());
    if (below(10)) ask.op = (uint32_t)(below(3) ? OP_CALL : below(OP_SHOW + 2));
    if (below(10)) ask.call = ++all[at].call;
    if (below(10)) ask.number = below(2) ? 1 << below(20) | below(8) : below(8);
    if (below(10)) ask.request.kind = (uint8_t)below(19);
    if (below(10)) ask.request.priority = (uint8_t)(1 + below(20));
    if (below(10)) ask.states = below(2) ? 0 : _NTO_TIMEOUT_SEND | _NTO_TIMEOUT_RECEIVE | _NTO_TIMEOUT_REPLY;
    if (below(10)) ask.time = (uint64_t)below(2000000);
    if (below(10)) ask.sent_len = (uint32_t)(below(4) ? below(300) : below(2 * WIRE_MOST));
    if (below(10)) ask.room_len = (uint32_t)(below(4) ? below(300) : below(2 * WIRE_MOST));
    if (below(4)) ask.pid = getpid();
    if (below(4)) ask.request.offset = (size_t)below(100);
    return ask;
}

static void send_packet(int at) {
    static uint8_t packet[2 * ROOM];
    struct wire_ask ask = any_ask(at);
    size_t behind = (size_t)below(below(10) ? 300 : ROOM);
    if (below(10)) ask.sent_len = (uint32_t)behind;
    memcpy(packet, &ask, sizeof ask);
    for (size_t byte = 0; byte < 64; byte++) packet[sizeof ask + byte] = (uint8_t)rand();
    size_t length = below(50) ? sizeof ask + behind : (size_t)below(sizeof ask);
    ssize_t sent = send(all[at].fd, packet, length, MSG_NOSIGNAL | MSG_DONTWAIT);
    if (sent < 0 && errno != EAGAIN) all[at].left = 1;
    for (int turn = 0; below(8) && turn < 3; turn++) {
        if (recv(all[at].fd, packet, sizeof packet, MSG_DONTWAIT) > 0) answered++;
    }
}

/* Puts a request into a box, and changes some of it while the daemon reads it. */
static void put_in_box(int at) {
    struct wire_box *box = all[at].box;
    const uint64_t once = 1;
    char byte;
    box->ask = any_ask(at);
    for (int count = 0; count < 64; count++)
        box->bytes[below(below(2) ? 300 : (int)sizeof box->bytes)] = (uint8_t)rand();
    if (below(10)) atomic_store(&box->word, (uint32_t)below(4));
    if (below(20)) atomic_fetch_add(&box->asked, 1);
    if (below(4) == 0) atomic_store(&box->given_up, below(2) ? all[at].call : (uint32_t)rand());
    if (below(20) == 0) atomic_store(&box->rings, (uint32_t)rand());
    if (write(all[at].bell, &once, sizeof once) < 0) exit(fprintf(stderr, "bell: %s\n", strerror(errno)));
    for (int turn = below(100); turn; turn--) {
        box->ask.sent_len = (uint32_t)rand();
        if (atomic_load(&box->word) == WIRE_ANSWERED) break;
    }
    answered += atomic_load(&box->word) == WIRE_ANSWERED;
    if (recv(all[at].fd, &byte, 1, MSG_DONTWAIT) == 0) all[at].left = 1;
}

static void send_one(const char *path, int at) {
    if (all[at].box && below(30)) put_in_box(at);
    else send_packet(at);
    closed += all[at].left == 1;
    if (--all[at].left == 0) reopen(path, at);
}

int main(int count, char **words) {
    if (count != 4) return 2;
    srand((unsigned)atoi(words[3]));
    for (int at = 0; at < SOCKETS; at++) reopen(words[1], at);
    for (long left = atol(words[2]); left; left--) send_one(words[1], below(10) ? 1 + below(SOCKETS - 1) : 0);
    printf("%ld answers, %ld times closed\n", answered, closed);
    return 0;
}
