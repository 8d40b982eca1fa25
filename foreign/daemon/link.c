/* Sockets to the daemon, at which a caller waits for its answer. Tested, not proved. */
#include <pwd.h>
#include <stdatomic.h>
#include <stdio.h>
#include <sys/socket.h>
#include <sys/uio.h>
#include <sys/un.h>

/* The user whom BALSAEUCHRE_SYSTEM_USER names, by a name or a number. -1: there is none. */
static uid_t trusted_user(void) {
    const char *name = secure_getenv("BALSAEUCHRE_SYSTEM_USER");
    struct passwd entry, *found = NULL;
    char room[1024], *end;
    if (!name || !*name) return (uid_t)-1;
    unsigned long number = strtoul(name, &end, 10);
    if (*name >= '0' && *name <= '9' && !*end) return number < UINT32_MAX ? (uid_t)number : (uid_t)-1;
    return !getpwnam_r(name, &entry, room, sizeof room, &found) && found ? entry.pw_uid : (uid_t)-1;
}

/* Whether the daemon at a socket runs as root, as this user, or as the user whom the environment names. If
 * not, reports it on standard error, once. */
static bool may_ask(int fd, const char *path) {
    static atomic_bool said;
    struct ucred daemon;
    socklen_t length = sizeof daemon;
    if (getsockopt(fd, SOL_SOCKET, SO_PEERCRED, &daemon, &length)) return false;
    if (daemon.uid == 0 || daemon.uid == geteuid() || daemon.uid == trusted_user()) return true;
    if (atomic_exchange(&said, true)) return false;
    dprintf(STDERR_FILENO,
            "balsaeuchre: the balsaeuchred at %s is of user %u: expected root's (0) or this user's "
            "(%u). BALSAEUCHRE_SYSTEM_USER=%u takes it\n",
            path, daemon.uid, geteuid(), daemon.uid);
    return false;
}

/* Connects to the daemon at a path. Returns the socket, or -1 and sets errno. EPERM: the program
 * doesn't trust the daemon's user. */
static int connect_to(const char *path) {
    struct sockaddr_un address = {.sun_family = AF_UNIX};
    if (!path || strlen(path) >= sizeof address.sun_path) return fail(ENAMETOOLONG);
    strcpy(address.sun_path, path);
    int fd = socket(AF_UNIX, SOCK_SEQPACKET | SOCK_CLOEXEC, 0);
    if (fd == -1) return -1;
    int error = connect(fd, (struct sockaddr *)&address, sizeof address) ? errno : 0;
    if (!error && !may_ask(fd, path)) error = EPERM;
    if (!error) return fd;
    close(fd);
    return fail(error);
}

/* Sends a request to the daemon in a packet, and waits for the answer. Returns the result, or fails with the
 * daemon's error, or with ESHUTDOWN if the daemon is gone. files, if not null, gets the files that come with
 * the answer. A daemon that refuses a socket answers before the request, and closes the socket. */
static long exchange(int fd, struct wire_ask *ask, struct iovec sent, struct wire_answer *answer, struct iovec room,
                     int files[2]) {
    struct iovec asked[] = {{ask, sizeof *ask}, sent}, answered[] = {{answer, sizeof *answer}, room};
    union {
        struct cmsghdr head;
        char room[CMSG_SPACE(2 * sizeof *files)];
    } rights = {.head = {0}};
    struct msghdr out = {.msg_iov = asked, .msg_iovlen = 2}, in = {.msg_iov = answered, .msg_iovlen = 2};
    ssize_t length;
    in.msg_control = &rights;
    in.msg_controllen = files ? sizeof rights : 0;
    ask->sent_len = (uint32_t)sent.iov_len;
    do length = sendmsg(fd, &out, MSG_NOSIGNAL);
    while (length == -1 && errno == EINTR);
    if (length == -1 && errno != EPIPE && errno != ECONNRESET) return fail(ESHUTDOWN);
    do length = recvmsg(fd, &in, MSG_CMSG_CLOEXEC);
    while (length == -1 && (errno == EINTR || errno == ECONNRESET));
    if (length < (ssize_t)sizeof *answer || answer->length > room.iov_len) return fail(ESHUTDOWN);
    if (answer->error) return fail(answer->error);
    size_t count = ask->op == OP_SENDER ? 1 : 2;
    if (files && rights.head.cmsg_len != CMSG_LEN(count * sizeof *files)) return fail(ESHUTDOWN);
    if (files) memcpy(files, CMSG_DATA(&rights.head), count * sizeof *files);
    return (long)answer->result;
}
