/* Programs that a program starts, by the host's posix_spawn. Tested, not proved. */
#include <fcntl.h>
#include <process.h>
#include <stdarg.h>
#include <sys/wait.h>

enum { MAPPED = 1000, ARGUMENTS = 1024 };
enum {
    SPAWN_REFUSED = SPAWN_SETSIGIGN | SPAWN_NOZOMBIE | SPAWN_HOLD | SPAWN_TCSETPGROUP | SPAWN_DEBUG |
                    SPAWN_EXPLICIT_SCHED
};

extern char **environ;

/* A program to start. */
struct executable {
    const char *path;
    char *const *argv;
    char *const *envp;
    bool is_searched; /* in PATH */
};

/* The files of a child: copies of the caller's files with numbers above all of the child's. */
struct file_map {
    int count;
    int *copies; /* -1: the child doesn't have the file */
};

static int wrong_spawn(const struct executable *executable, int fd_count, const struct inheritance *inherit) {
    if (!executable->path || !executable->argv) return EFAULT;
    if (fd_count < 0 || fd_count > MAPPED) return EINVAL;
    if (inherit && inherit->flags & SPAWN_REFUSED) return ENOTSUP;
    return inherit && inherit->flags & SPAWN_SETND && inherit->nd != ND_LOCAL_NODE ? ESRCH : 0;
}

static int wrong_program(const char *path) { return faccessat(AT_FDCWD, path, X_OK, AT_EACCESS) ? errno : 0; }

/* Returns an errno if there is no such program, or 0. The host finds that out in a child, whose end would signal
 * SIGCHLD. */
static int missing_program(const struct executable *executable) {
    const char *folder = getenv("PATH"), *name = executable->path;
    int error = ENOENT;
    if (!executable->is_searched || strchr(name, '/')) return wrong_program(name);
    if (!folder) folder = "/bin:/usr/bin";
    for (bool is_last = false; !is_last;) {
        char whole[PATH_MAX];
        int length = (int)strcspn(folder, ":");
        snprintf(whole, sizeof whole, "%.*s%s%s", length, folder, length ? "/" : "", name);
        int wrong = wrong_program(whole);
        if (!wrong) return 0;
        if (wrong == EACCES) error = EACCES;
        is_last = !folder[length];
        folder += length + !is_last;
    }
    return error;
}

static void close_map(struct file_map *map) {
    for (int at = 0; at < map->count; at++) {
        if (map->copies[at] != -1) close(map->copies[at]);
    }
    free(map->copies);
}

/* Copies the files of a map, so that no file of the child takes the place of one that is still to be copied.
 * Returns 0 or an errno. */
static int open_map(struct file_map *map, int fd_count, const int fd_map[]) {
    *map = (struct file_map){0, malloc((size_t)(fd_count ? fd_count : 1) * sizeof *map->copies)};
    if (!map->copies) return ENOMEM;
    for (; map->count < fd_count; map->count++) {
        int fd = fd_map[map->count];
        map->copies[map->count] = fd == SPAWN_FDCLOSED ? -1 : fcntl(fd, F_DUPFD_CLOEXEC, fd_count);
        if (fd != SPAWN_FDCLOSED && map->copies[map->count] == -1) return errno;
    }
    return 0;
}

/* Has the child take the files of a map, and no others. */
static int add_files(posix_spawn_file_actions_t *actions, const struct file_map *map) {
    int error = 0;
    for (int at = 0; at < map->count && !error; at++) {
        int fd = map->copies[at];
        error = fd == -1 ? posix_spawn_file_actions_addclose(actions, at)
                         : posix_spawn_file_actions_adddup2(actions, fd, at);
    }
    return error || !map->count ? error : posix_spawn_file_actions_addclosefrom_np(actions, map->count);
}

static void set_attributes(posix_spawnattr_t *attributes, const struct inheritance *inherit) {
    unsigned long flags = inherit ? inherit->flags : 0;
    short hosts = 0;
    if (flags & SPAWN_SETGROUP) {
        hosts |= POSIX_SPAWN_SETPGROUP;
        posix_spawnattr_setpgroup(attributes, inherit->pgroup);
    }
    if (flags & SPAWN_SETSIGMASK) {
        hosts |= POSIX_SPAWN_SETSIGMASK;
        posix_spawnattr_setsigmask(attributes, &inherit->sigmask);
    }
    if (flags & SPAWN_SETSIGDEF) {
        hosts |= POSIX_SPAWN_SETSIGDEF;
        posix_spawnattr_setsigdefault(attributes, &inherit->sigdefault);
    }
    if (flags & SPAWN_SETSID) hosts |= POSIX_SPAWN_SETSID;
    posix_spawnattr_setflags(attributes, hosts);
}

/* Starts a program with these files. Returns its pid, or -1 and sets errno. */
static pid_t start_executable(const struct executable *executable, const struct file_map *map,
                              const struct inheritance *inherit) {
    posix_spawn_file_actions_t actions;
    posix_spawnattr_t attributes;
    pid_t pid = -1;
    posix_spawn_file_actions_init(&actions);
    posix_spawnattr_init(&attributes);
    set_attributes(&attributes, inherit);
    int error = add_files(&actions, map);
    if (!error)
        error = (executable->is_searched ? posix_spawnp : posix_spawn)(&pid, executable->path, &actions, &attributes,
                                                                       executable->argv, executable->envp);
    posix_spawnattr_destroy(&attributes);
    posix_spawn_file_actions_destroy(&actions);
    return error ? fail(error) : pid;
}

/* Replaces the caller by a program, with these files. Returns only on an error. */
static pid_t replace_caller(const struct executable *executable, const struct file_map *map) {
    for (int at = 0; at < map->count; at++) {
        if (map->copies[at] == -1) close(at);
        else if (dup2(map->copies[at], at) == -1) return -1;
    }
    if (map->count) closefrom(map->count);
    if (executable->is_searched) execvpe(executable->path, executable->argv, executable->envp);
    else execve(executable->path, executable->argv, executable->envp);
    return -1;
}

static pid_t spawn_executable(struct executable executable, int fd_count, const int fd_map[],
                              const struct inheritance *inherit) {
    struct file_map map;
    unsigned long flags = inherit ? inherit->flags : 0;
    int error = wrong_spawn(&executable, fd_count, inherit);
    if (!executable.envp) executable.envp = environ;
    if (flags & SPAWN_SEARCH_PATH) executable.is_searched = true;
    if (!error) error = missing_program(&executable);
    if (error) return fail(error);
    pid_t pid = -1;
    error = open_map(&map, fd_count, fd_map);
    if (!error) {
        pid = flags & SPAWN_EXEC ? replace_caller(&executable, &map) : start_executable(&executable, &map, inherit);
        error = pid == -1 ? errno : 0;
    }
    close_map(&map);
    return error ? fail(error) : pid;
}

pid_t spawn(const char *path, int fd_count, const int fd_map[], const struct inheritance *inherit, char *const argv[],
            char *const envp[]) {
    return spawn_executable((struct executable){path, argv, envp, false}, fd_count, fd_map, inherit);
}

pid_t spawnp(const char *file, int fd_count, const int fd_map[], const struct inheritance *inherit, char *const argv[],
             char *const envp[]) {
    return spawn_executable((struct executable){file, argv, envp, true}, fd_count, fd_map, inherit);
}

/* Starts a program in one of the modes. */
static int spawn_mode(int mode, struct executable executable) {
    struct inheritance replaces = {.flags = SPAWN_EXEC};
    int status;
    if (mode == P_NOWAITO) return fail(ENOTSUP);
    if (mode != P_WAIT && mode != P_NOWAIT && mode != P_OVERLAY) return fail(EINVAL);
    pid_t pid = spawn_executable(executable, 0, NULL, mode == P_OVERLAY ? &replaces : NULL);
    if (pid == -1 || mode != P_WAIT) return pid;
    while (waitpid(pid, &status, 0) == -1) {
        if (errno != EINTR) return -1;
    }
    return status;
}

int spawnv(int mode, const char *path, char *const argv[]) {
    return spawn_mode(mode, (struct executable){path, argv, NULL, false});
}

int spawnve(int mode, const char *path, char *const argv[], char *const envp[]) {
    return spawn_mode(mode, (struct executable){path, argv, envp, false});
}

int spawnvp(int mode, const char *file, char *const argv[]) {
    return spawn_mode(mode, (struct executable){file, argv, NULL, true});
}

int spawnvpe(int mode, const char *file, char *const argv[], char *const envp[]) {
    return spawn_mode(mode, (struct executable){file, argv, envp, true});
}

/* A function that takes the arguments of the program as its own, and after them, if takes_environment, the
 * environment. */
#define SPAWN_LIST(name, is_searched, takes_environment) \
    int name(int mode, const char *path, const char *arg0, ...) { \
        char *argv[ARGUMENTS + 1] = {(char *)(uintptr_t)arg0}; \
        char *const *envp = NULL; \
        int count = arg0 ? 1 : 0; \
        va_list rest; \
        va_start(rest, arg0); \
        while (count && count <= ARGUMENTS && (argv[count] = va_arg(rest, char *))) count++; \
        if (takes_environment && count <= ARGUMENTS) envp = va_arg(rest, char *const *); \
        va_end(rest); \
        if (count > ARGUMENTS) return fail(E2BIG); \
        return spawn_mode(mode, (struct executable){path, argv, envp, is_searched}); \
    }

SPAWN_LIST(spawnl, false, false)
SPAWN_LIST(spawnle, false, true)
SPAWN_LIST(spawnlp, true, false)
SPAWN_LIST(spawnlpe, true, true)
