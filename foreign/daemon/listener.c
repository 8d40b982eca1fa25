/* The socket to which programs connect. The daemon makes it or gets it from systemd, and only one daemon
 * has it. Tested, not proved. */
#include <sys/file.h>
#include <sys/stat.h>

enum { REST = 100 }; /* milliseconds */

static int listener = -1;
static struct stat made;     /* the file of the socket, if the daemon made it */
static int spare = -1;       /* an open file; it is closed if the host gives the daemon no further file */
static uint64_t rests_until; /* until then the epoll doesn't watch the listener; 0: it does */

/* ---- opening */

/* Takes the lock of a path, which the daemon holds until it ends. The lock file stays. If it were removed,
 * two daemons could each have a lock, on two files of the same name. */
static bool take_lock(const char *path) {
    char name[sizeof((struct sockaddr_un *)0)->sun_path + sizeof ".lock"];
    snprintf(name, sizeof name, "%s.lock", path);
    int fd = open(name, O_RDWR | O_CREAT | O_CLOEXEC | O_NOFOLLOW, 0600);
    if (fd == -1) return complain("%s: the lock file can't be opened: %s", name, strerror(errno));
    if (!flock(fd, LOCK_EX | LOCK_NB)) return true;
    if (errno == EWOULDBLOCK) return complain("%s: a balsaeuchred is running there; it holds %s", path, name);
    return complain("%s: the lock can't be taken: %s", name, strerror(errno));
}

static const char *kind_of(mode_t mode) {
    if (S_ISREG(mode)) return "a regular file";
    if (S_ISDIR(mode)) return "a directory";
    if (S_ISLNK(mode)) return "a symbolic link";
    return S_ISFIFO(mode) ? "a pipe" : "a device";
}

/* Whether a path is a socket or doesn't exist. Reports any other file, which stays as it is. */
static bool may_be_socket(const char *path) {
    struct stat there;
    if (lstat(path, &there)) return errno == ENOENT || complain("%s: %s", path, strerror(errno));
    if (S_ISSOCK(there.st_mode)) return true;
    return complain("%s: expected a socket or nothing, found %s. Give another path, or move the file away", path,
                    kind_of(there.st_mode));
}

/* Removes the socket of a daemon that has ended. Returns false if another program
 * listens there, or on an error. */
static bool remove_old_socket(const char *path, const struct sockaddr_un *address) {
    int fd = socket(AF_UNIX, SOCK_SEQPACKET | SOCK_CLOEXEC | SOCK_NONBLOCK, 0);
    int error = connect(fd, (const struct sockaddr *)address, sizeof *address) ? errno : 0;
    if (fd != -1) close(fd);
    if (error == ENOENT) return true;
    if (error == ECONNREFUSED) return !unlink(path) || complain("%s: %s", path, strerror(errno));
    if (!error || error == EAGAIN || error == EPROTOTYPE)
        return complain("%s: another program listens there. End it, or give another path", path);
    return complain("%s: %s", path, strerror(error));
}

static bool make_listener(const char *path) {
    struct sockaddr_un address = {.sun_family = AF_UNIX};
    if (strlen(path) >= sizeof address.sun_path)
        return complain("%s: expected a path of at most %zu bytes", path, sizeof address.sun_path - 1);
    strcpy(address.sun_path, path);
    bool is_free = may_be_socket(path) && take_lock(path) && may_be_socket(path) && remove_old_socket(path, &address);
    if (!is_free) return false;
    listener = socket(AF_UNIX, SOCK_SEQPACKET | SOCK_CLOEXEC | SOCK_NONBLOCK, 0);
    mode_t before = umask(limits.has_group ? 0117 : 0177);
    int bound = bind(listener, (struct sockaddr *)&address, sizeof address);
    umask(before);
    if (bound || lstat(path, &made) || listen(listener, 64)) return complain("%s: %s", path, strerror(errno));
    if (limits.has_group && chown(path, (uid_t)-1, limits.group))
        return complain("%s: its group can't be changed: %s", path, strerror(errno));
    return true;
}

static bool has_option(int fd, int option, int wanted) {
    int value;
    socklen_t length = sizeof value;
    return !getsockopt(fd, SOL_SOCKET, option, &value, &length) && value == wanted;
}

/* Takes the socket that systemd made: the first file after the standard ones. */
static bool inherit_listener(void) {
    enum { FIRST = 3 };
    const char *pid = getenv("LISTEN_PID"), *count = getenv("LISTEN_FDS");
    long number;
    if (!pid && !count) return complain("expected a SOCKET, or one of systemd, found none; --help says more");
    if (!read_number(pid, getpid(), getpid(), &number))
        return complain("LISTEN_PID: expected %d, found '%s'", (int)getpid(), pid ? pid : "");
    if (!read_number(count, 1, 1, &number)) return complain("LISTEN_FDS: expected 1, found '%s'", count ? count : "");
    if (!has_option(FIRST, SO_DOMAIN, AF_UNIX) || !has_option(FIRST, SO_TYPE, SOCK_SEQPACKET) ||
        !has_option(FIRST, SO_ACCEPTCONN, 1))
        return complain("file %d: expected a Unix socket of ListenSequentialPacket, found another file", FIRST);
    listener = FIRST;
    if (!fcntl(listener, F_SETFD, FD_CLOEXEC) && !fcntl(listener, F_SETFL, O_NONBLOCK)) return true;
    return complain("the socket of systemd: %s", strerror(errno));
}

/* Opens the socket, or takes it from systemd. Returns whether that succeeded. */
static bool open_listener(const char *path) {
    spare = open("/dev/null", O_RDONLY | O_CLOEXEC);
    return path ? make_listener(path) : inherit_listener();
}

/* Removes the socket, unless another file is at its path by now. */
static void remove_socket(const char *path) {
    struct stat there;
    if (!path || lstat(path, &there) || there.st_dev != made.st_dev || there.st_ino != made.st_ino) return;
    unlink(path);
}

/* ---- accepting */

/* Whether the user of a socket may use the kernel. */
static bool may_connect(int fd, struct ucred *peer) {
    gid_t groups[64];
    socklen_t length = sizeof *peer, bytes = sizeof groups;
    if (getsockopt(fd, SOL_SOCKET, SO_PEERCRED, peer, &length) || peer->pid <= 0) return false;
    if (peer->uid == geteuid() || (limits.has_group && peer->gid == limits.group)) return true;
    if (!limits.has_group || getsockopt(fd, SOL_SOCKET, SO_PEERGROUPS, groups, &bytes)) return false;
    for (size_t at = 0; at < bytes / sizeof *groups; at++) {
        if (groups[at] == limits.group) return true;
    }
    return false;
}

/* Returns a free client. If there is none, takes the oldest client that has not joined, and closes its
 * socket. Null: all clients have joined. */
static struct client *new_client(void) {
    struct client *oldest = NULL;
    for (int at = 0; at < CLIENTS; at++) {
        struct client *c = &clients[at];
        if (!c->is_used) return c;
        if (!c->process && (!oldest || c->came_as < oldest->came_as)) oldest = c;
    }
    if (oldest) free_client(oldest);
    return oldest;
}

/* Sends this error as the answer to a socket's first request, and closes the socket. */
static void refuse(int fd, int error) {
    struct wire_answer answer = {.error = error, .result = -1};
    send(fd, &answer, sizeof answer, MSG_NOSIGNAL | MSG_DONTWAIT);
    close(fd);
}

static int accept_socket(void) { return accept4(listener, NULL, NULL, SOCK_CLOEXEC | SOCK_NONBLOCK); }

/* The host gives no file for the next socket. So the daemon accepts it in place of the spare file,
 * and refuses it. If that fails, too, the listener rests, because the epoll would report the
 * waiting socket again and again. */
static void refuse_next(void) {
    if (spare != -1) close(spare);
    int fd = accept_socket();
    if (fd != -1) refuse(fd, ENFILE);
    spare = open("/dev/null", O_RDONLY | O_CLOEXEC);
    if (fd != -1 && spare != -1) return;
    rests_until = now() + REST * 1000000u;
    watch_for(listener, 0, NULL);
}

static void end_rest(void) {
    if (!rests_until || now() < rests_until) return;
    rests_until = 0;
    watch_for(listener, EPOLLIN, NULL);
}

static void accept_client(void) {
    static uint64_t came;
    struct ucred peer;
    int fd = accept_socket();
    if (fd == -1) {
        if (errno != EAGAIN && errno != EINTR && errno != ECONNABORTED) refuse_next();
        return;
    }
    bool may = may_connect(fd, &peer);
    struct client *c = may ? new_client() : NULL;
    if (!c || !watch(fd, EPOLLIN, c)) {
        refuse(fd, may ? EAGAIN : EACCES);
        return;
    }
    *c = no_client;
    c->is_used = true;
    c->fd = fd;
    c->peer = peer;
    c->came_as = ++came;
}
