/* Sockets and boxes: answers, and the bytes of calls. No function waits. Tested, not proved.
 *
 * A box is memory of the daemon, and its length is sealed. Its thread may change the content at any time. So
 * the daemon copies a request before it looks at it, and reads each word once. */
#include <linux/futex.h>
#include <sys/eventfd.h>
#include <sys/mman.h>
#include <sys/syscall.h>
#include <sys/uio.h>

static int events; /* the epoll */
/* In the epoll its address marks any bell. After a bell all boxes are looked at. */
static const char bell;

typedef uint64_t __attribute__((may_alias)) box_word;

/* Copies bytes that a program may change meanwhile. Reads each byte once. from has the alignment of a
 * word. */
static void copy_once(void *to, const void *from, size_t length) {
    const box_word *words = from;
    const uint8_t *bytes = from;
    uint8_t *target = to;
    size_t at = 0;
    for (; at + sizeof *words <= length; at += sizeof *words) {
        box_word word = __atomic_load_n(words++, __ATOMIC_RELAXED);
        memcpy(target + at, &word, sizeof word);
    }
    for (; at < length; at++) target[at] = __atomic_load_n(bytes + at, __ATOMIC_RELAXED);
}

static bool watch(int fd, uint32_t wanted, const void *of) {
    return !epoll_ctl(events, EPOLL_CTL_ADD, fd, &(struct epoll_event){wanted, {.ptr = (void *)(uintptr_t)of}});
}

/* Changes the events of a file that the epoll reports. */
static void watch_for(int fd, uint32_t wanted, const void *of) {
    epoll_ctl(events, EPOLL_CTL_MOD, fd, &(struct epoll_event){wanted, {.ptr = (void *)(uintptr_t)of}});
}

/* Makes the box and the bell of a thread. Returns whether that succeeded. files gets both, for the thread. */
static bool open_box(struct client *c, int files[2]) {
    int file = memfd_create("balsaeuchre", MFD_CLOEXEC | MFD_ALLOW_SEALING);
    files[0] = file;
    files[1] = c->bell = eventfd(0, EFD_CLOEXEC | EFD_NONBLOCK);
    if (file == -1 || c->bell == -1 || ftruncate(file, sizeof *c->box)) return false;
    if (fcntl(file, F_ADD_SEALS, F_SEAL_SHRINK | F_SEAL_GROW | F_SEAL_SEAL)) return false;
    void *box = mmap(NULL, sizeof *c->box, PROT_READ | PROT_WRITE, MAP_SHARED, file, 0);
    if (box == MAP_FAILED) return false;
    c->box = box;
    return watch(c->bell, EPOLLIN | EPOLLET, &bell);
}

static void close_box(struct client *c) {
    if (c->box) munmap(c->box, sizeof *c->box);
    if (c->bell != -1) {
        epoll_ctl(events, EPOLL_CTL_DEL, c->bell, NULL); /* its thread may still have it */
        close(c->bell);
    }
    c->box = NULL;
    c->bell = -1;
}

/* Sends an answer as a packet, with up to two files. */
static void send_answer(struct client *c, const void *bytes, const int *files, size_t count) {
    struct iovec parts[] = {{&c->answer, sizeof c->answer}, {(void *)(uintptr_t)bytes, c->answer.length}};
    union {
        struct cmsghdr head;
        char room[CMSG_SPACE(2 * sizeof *files)];
    } rights = {.head = {0}};
    struct msghdr packet = {.msg_iov = parts, .msg_iovlen = 2};
    if (count) {
        rights.head = (struct cmsghdr){CMSG_LEN(count * sizeof *files), SOL_SOCKET, SCM_RIGHTS};
        memcpy(CMSG_DATA(&rights.head), files, count * sizeof *files);
        packet.msg_control = &rights;
        packet.msg_controllen = CMSG_SPACE(count * sizeof *files);
    }
    /* If a socket takes no answer, its program has not read the last ones. */
    if (sendmsg(c->fd, &packet, MSG_NOSIGNAL | MSG_DONTWAIT) < 0) shutdown(c->fd, SHUT_RDWR);
}

/* Threads that have an answer and have to be woken: a bit for each, by the index of its seat. */
static uint64_t asleep, at_socket;

/* Puts an answer into the box of a thread. */
static void put_in_box(struct client *c, const void *bytes) {
    if (c->answer.length) memcpy(c->box->bytes, bytes, c->answer.length);
    c->box->answer = c->answer;
    uint32_t before = atomic_exchange(&c->box->word, WIRE_ANSWERED);
    if (before == WIRE_ASLEEP) asleep |= bit_of(k, c->place);
    if (before == WIRE_AT_SOCKET) at_socket |= bit_of(k, c->place);
}

/* Wakes the threads that have an answer. This is done after all answers are written, because a wake-up
 * takes longer than an answer. */
static void wake_threads(void) {
    for (; asleep; asleep &= asleep - 1) {
        const struct client *c = client_of[__builtin_ctzll(asleep)];
        if (c && c->box) syscall(SYS_futex, &c->box->word, FUTEX_WAKE, 1, NULL, NULL, 0);
    }
    for (; at_socket; at_socket &= at_socket - 1) {
        const struct client *c = client_of[__builtin_ctzll(at_socket)];
        if (c && c->fd != -1) send(c->fd, "", 1, MSG_NOSIGNAL | MSG_DONTWAIT);
    }
}

static void put_answer(struct client *c, int error, int64_t result, const void *bytes, size_t length) {
    c->answer.error = error;
    c->answer.result = error ? -1 : result;
    c->answer.length = (uint32_t)length;
    if (c->box) put_in_box(c, bytes);
    else if (c->fd != -1) send_answer(c, bytes, NULL, 0);
}

static void put_result(struct client *c, int error, int64_t result) { put_answer(c, error, result, NULL, 0); }

/* Takes memory for a call's bytes, if its process may have so many. The memory isn't cleared. An answer has
 * only those bytes of the room that the kernel has written or that came with the call. */
static void take_bytes(struct client *c, size_t size) {
    struct process *process = &processes[c->process];
    c->size = 0;
    c->bytes = process->bytes + size <= (size_t)limits.bytes ? malloc(size + 1) : NULL;
    if (!c->bytes) return;
    c->size = size;
    process->bytes += size;
}

static void drop_bytes(struct client *c) {
    processes[c->process].bytes -= c->size;
    free(c->bytes);
    c->bytes = NULL;
    c->size = 0;
}

static void free_client(struct client *c) {
    if (c->fd != -1) close(c->fd);
    close_box(c);
    drop_bytes(c);
    *c = no_client;
}
