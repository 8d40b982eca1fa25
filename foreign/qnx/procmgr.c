/* The process manager's functions that the host has under other names, and confstr. Tested, not proved. */
#include <confname.h>
#include <dirent.h>
#include <sys/procmgr.h>
#include <sys/stat.h>
#include <sys/utsname.h>
#undef confstr

enum {
    DAEMON_FLAGS = PROCMGR_DAEMON_NOCHDIR | PROCMGR_DAEMON_NOCLOSE | PROCMGR_DAEMON_NODEVNULL | PROCMGR_DAEMON_KEEPUMASK
};

/* Returns whether the program can continue in a child: it has no kernel, and no other thread. */
static bool can_fork(void) {
    int tasks = 0;
    DIR *all = opendir("/proc/self/task");
    hold();
    bool has_kernel = kernel;
    release();
    for (struct dirent *one; all && (one = readdir(all));) tasks += *one->d_name != '.';
    if (all) closedir(all);
    return !has_kernel && tasks == 1;
}

/* Makes the files 0 to 2 the host's /dev/null. */
static int open_null(void) {
    int null = open("/dev/null", O_RDWR);
    if (null == -1) return -1;
    for (int fd = 0; fd <= STDERR_FILENO; fd++) {
        if (dup2(null, fd) == -1) return -1;
    }
    if (null > STDERR_FILENO) close(null);
    return 0;
}

int procmgr_daemon(int status, unsigned flags) {
    if (flags & ~(unsigned)DAEMON_FLAGS) return fail(EINVAL);
    bool forks = can_fork();
    pid_t child = forks ? fork() : 0;
    if (child == -1) return -1;
    if (child) _exit(status);
    setsid(); /* it fails if the program already leads a process group */
    if (!(flags & PROCMGR_DAEMON_KEEPUMASK)) umask(0);
    if (!(flags & PROCMGR_DAEMON_NOCHDIR) && chdir("/")) return -1;
    if (!(flags & PROCMGR_DAEMON_NODEVNULL) && open_null()) return -1;
    if (forks && !(flags & PROCMGR_DAEMON_NOCLOSE)) closefrom(STDERR_FILENO + 1);
    return 0;
}

int procmgr_ability(pid_t pid, unsigned ability, ...) {
    (void)ability;
    return pid && pid != getpid() ? fail(ESRCH) : EOK;
}

/* Returns what uname says for one of QNX's names, or null. */
static const char *name_of_host(const struct utsname *host, int name) {
    switch (name) {
    case _CS_HOSTNAME:
        return host->nodename;
    case _CS_RELEASE:
        return host->release;
    case _CS_VERSION:
        return host->version;
    case _CS_MACHINE:
    case _CS_ARCHITECTURE:
        return host->machine;
    case _CS_SYSNAME:
        return host->sysname;
    default:
        return NULL;
    }
}

size_t neutrino_confstr(int name, char *text, size_t length) {
    struct utsname host;
    const char *value = uname(&host) ? NULL : name_of_host(&host, name);
    if (!value) return confstr(name, text, length);
    if (text && length) snprintf(text, length, "%s", value);
    return strlen(value) + 1;
}
