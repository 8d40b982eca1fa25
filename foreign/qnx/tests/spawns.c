/* Programs that are spawned, with each of the errors, and procmgr_daemon. */
#include "tests.h"

#include <fcntl.h>
#include <process.h>
#include <spawn.h>
#include <sys/procmgr.h>
#include <sys/stat.h>
#include <sys/wait.h>

static const char shell[] = "/bin/sh";

/* The words of a shell that runs a text. */
static char **script(const char *text) {
    static char *words[4] = {(char *)(uintptr_t)shell, "-c"};
    words[2] = (char *)(uintptr_t)text;
    return words;
}

static void ends_with(pid_t pid, int exit_status) {
    int status = -1;
    check(pid > 0 && waitpid(pid, &status, 0) == pid && WIFEXITED(status) && WEXITSTATUS(status) == exit_status);
}

/* Compares what a child writes to a pipe. */
static void expect_text(int file, const char *expected) {
    char printed[200] = "";
    ssize_t length = 0;
    for (ssize_t more; (more = read(file, printed + length, sizeof printed - 1 - (size_t)length)) > 0;) {
        length += more;
        if (strchr(printed, '\n')) break;
    }
    if (strcmp(printed, expected) != 0) fprintf(stderr, "printed: %s", printed);
    check(strcmp(printed, expected) == 0);
}

/* Runs a script with a map of files, and compares what it writes to its file 1. */
static void prints(const char *text, int count, const int map[], const struct inheritance *inherit, int file,
                   const char *expected) {
    ends_with(spawn(shell, count, map, inherit, script(text), NULL), 0);
    expect_text(file, expected);
}

/* Prints the digit of SIGUSR1 and SIGUSR2 in a line of its own status, by sed: a shell would change its signals. Who
 * runs the tests may ignore other signals. */
static void has_signals(const char *line, const int map[], const struct inheritance *inherit, int file,
                        const char *expected) {
    char text[60];
    snprintf(text, sizeof text, "s/%s:.*\\(.\\)..$/\\1/p", line);
    char *words[] = {"sed", "-n", text, "/proc/self/status", NULL};
    ends_with(spawnp("sed", 3, map, inherit, words, NULL), 0);
    expect_text(file, expected);
}

/* A child has the files of the map, in the map's order, and no other. */
void spawn_files(void) {
    int out[2], in[2], extra = fcntl(2, F_DUPFD, 40);
    check(pipe(out) == 0 && pipe(in) == 0 && extra == 40 && write(in[1], "word\n", 5) == 5);
    int map[3] = {in[0], out[1], 2};
    prints("read x; echo $x; cat /dev/null; test ! -e /proc/$$/fd/40", 3, map, NULL, out[0], "word\n");
    int crossed[4] = {0, out[1], 2, 1}; /* the child's 1 and 3 are the caller's out[1] and 1 */
    prints("test -e /proc/$$/fd/3 && test ! -e /proc/$$/fd/40 && echo yes", 4, crossed, NULL, out[0], "yes\n");
    int closed[3] = {SPAWN_FDCLOSED, out[1], 2};
    prints("test -e /proc/$$/fd/0 && echo open || echo closed", 3, closed, NULL, out[0], "closed\n");
    int missing[2] = {0, 999};
    fails(spawn(shell, 2, missing, NULL, script("true"), NULL), EBADF);
    for (int at = 0; at < 2; at++) check(close(in[at]) == 0 && close(out[at]) == 0);
    check(close(extra) == 0);
}

static void inherits_signals(int out[2]) {
    struct inheritance inherit = {.flags = SPAWN_SETSIGMASK | SPAWN_SETSIGDEF | SPAWN_SETND | SPAWN_CHECK_SCRIPT};
    int map[3] = {0, out[1], 2};
    sigemptyset(&inherit.sigmask);
    sigaddset(&inherit.sigmask, SIGUSR1);
    sigemptyset(&inherit.sigdefault);
    sigaddset(&inherit.sigdefault, SIGUSR2);
    check(signal(SIGUSR2, SIG_IGN) != SIG_ERR);
    has_signals("SigBlk", map, &inherit, out[0], "2\n");
    has_signals("SigIgn", map, &inherit, out[0], "0\n");
    inherit.flags = 0;
    has_signals("SigBlk", map, &inherit, out[0], "0\n");
    has_signals("SigIgn", map, &inherit, out[0], "8\n");
    check(signal(SIGUSR2, SIG_DFL) == SIG_IGN);
}

/* Process groups, sessions, signals, and the flags that are refused. */
void spawn_inherits(void) {
    int out[2];
    struct inheritance inherit = {.flags = SPAWN_SETGROUP, .pgroup = SPAWN_NEWPGROUP};
    check(pipe(out) == 0);
    int map[3] = {0, out[1], 2};
    const char *group = "read p c s pp g rest </proc/$$/stat; test $g = $$ && echo own || echo other";
    prints(group, 3, map, &inherit, out[0], "own\n");
    inherit.flags = 0;
    prints(group, 3, map, &inherit, out[0], "other\n");
    inherit.flags = SPAWN_SETSID;
    prints("read p c s pp g ss rest </proc/$$/stat; test $ss = $$ && echo own", 3, map, &inherit, out[0], "own\n");
    inherits_signals(out);
    static const unsigned long refused[] = {SPAWN_SETSIGIGN,   SPAWN_NOZOMBIE, SPAWN_HOLD,
                                            SPAWN_TCSETPGROUP, SPAWN_DEBUG,    SPAWN_EXPLICIT_SCHED};
    for (size_t at = 0; at < sizeof refused / sizeof *refused; at++) {
        inherit.flags = refused[at];
        fails(spawn(shell, 0, NULL, &inherit, script("true"), NULL), ENOTSUP);
    }
    inherit = (struct inheritance){.flags = SPAWN_SETND, .nd = 7};
    fails(spawn(shell, 0, NULL, &inherit, script("true"), NULL), ESRCH);
    for (int at = 0; at < 2; at++) check(close(out[at]) == 0);
}

void spawns(void) {
    char *environment[] = {"WORD=7", NULL};
    struct inheritance searches = {.flags = SPAWN_SEARCH_PATH};
    ends_with(spawn(shell, 0, NULL, NULL, script("exit $WORD"), environment), 7);
    check(setenv("WORD", "8", 1) == 0);
    ends_with(spawnp("sh", 0, NULL, NULL, script("exit $WORD"), NULL), 8);
    ends_with(spawn("sh", 0, NULL, &searches, script("exit 9"), NULL), 9);
    fails(spawn("sh", 0, NULL, NULL, script("exit 9"), NULL), ENOENT);
    fails(spawn(NULL, 0, NULL, NULL, script("true"), NULL), EFAULT);
    fails(spawn(shell, 0, NULL, NULL, NULL, NULL), EFAULT);
    fails(spawn(shell, -1, NULL, NULL, script("true"), NULL), EINVAL);
    fails(spawn(shell, 1001, NULL, NULL, script("true"), NULL), EINVAL);
    fails(spawnp("no such program", 0, NULL, NULL, script("true"), NULL), ENOENT);
    fails(spawnl(P_NOWAITO, shell, shell, "-c", "true", NULL), ENOTSUP);
    fails(spawnl(17, shell, shell, "-c", "true", NULL), EINVAL);
    fails(spawnl(P_WAIT, "no such program", "x", NULL), ENOENT);
    check(unsetenv("WORD") == 0);
}

static volatile sig_atomic_t children;

static void count_child(int signo) { children += signo == SIGCHLD; }

static void in_path(const char *path, const char *name, int error) {
    check(setenv("PATH", path, 1) == 0);
    fails(spawnlp(P_NOWAIT, name, name, NULL), error);
    check(unsetenv("PATH") == 0);
    fails(spawnlp(P_NOWAIT, name, name, NULL), ENOENT);
}

/* A program that can't be run ends no child. */
void spawn_of_nothing(void) {
    const char *path = getenv("PATH");
    char folder[] = "/tmp/spawnsXXXXXX", file[40], *old = strdup(path ? path : "");
    check(mkdtemp(folder) && snprintf(file, sizeof file, "%s/no_program", folder) > 0);
    int fd = open(file, O_CREAT | O_WRONLY, 0600);
    check(old && fd != -1 && close(fd) == 0 && signal(SIGCHLD, count_child) == SIG_DFL);
    in_path(":/nowhere", "no program", ENOENT);
    in_path("", "no program", ENOENT);
    fails(spawnl(P_NOWAIT, "/no/program", "x", NULL), ENOENT);
    fails(spawnl(P_NOWAIT, "/dev/null/program", "x", NULL), ENOTDIR);
    check(setenv("PATH", folder, 1) == 0);
    fails(spawnlp(P_NOWAIT, "no_program", "x", NULL), EACCES);
    fails(spawnl(P_WAIT, file, "x", NULL), EACCES);
    check(children == 0 && setenv("PATH", "/nowhere:/bin:/usr/bin:", 1) == 0);
    ends_with(spawnlp(P_NOWAIT, "sh", "sh", "-c", "exit 3", NULL), 3);
    check(children == 1 && setenv("PATH", old, 1) == 0 && signal(SIGCHLD, SIG_DFL) != SIG_ERR);
    check(unlink(file) == 0 && rmdir(folder) == 0);
    free(old);
}

/* The forms with lists and arrays, and the modes. */
void spawn_lists(void) {
    char *environment[] = {"WORD=5", NULL}, **words = script("exit $WORD");
    ends_with(spawnl(P_NOWAIT, shell, shell, "-c", "exit 1", NULL), 1);
    ends_with(spawnlp(P_NOWAIT, "sh", "sh", "-c", "exit $#", "a", "b", "c", NULL), 2);
    ends_with(spawnle(P_NOWAIT, shell, shell, "-c", "exit $WORD", NULL, environment), 5);
    ends_with(spawnlpe(P_NOWAIT, "sh", "sh", "-c", "exit $WORD", NULL, environment), 5);
    ends_with(spawnve(P_NOWAIT, shell, words, environment), 5);
    ends_with(spawnvpe(P_NOWAIT, "sh", words, environment), 5);
    ends_with(spawnv(P_NOWAIT, shell, script("exit 3")), 3);
    ends_with(spawnvp(P_NOWAIT, "sh", script("exit 4")), 4);
    int status = spawnl(P_WAIT, shell, shell, "-c", "exit 6", NULL);
    check(WIFEXITED(status) && WEXITSTATUS(status) == 6);
    status = spawnl(P_WAIT, shell, shell, "-c", "kill -9 $$", NULL);
    check(WIFSIGNALED(status) && WTERMSIG(status) == SIGKILL);
    pid_t child = fork();
    if (!child) {
        spawnl(P_OVERLAY, shell, shell, "-c", "exit 11", NULL);
        _exit(1);
    }
    ends_with(child, 11);
    child = fork();
    if (!child) _exit(spawnl(P_OVERLAY, "no such program", "x", NULL) == -1 && errno == ENOENT ? 12 : 1);
    ends_with(child, 12);
}

/* Replaces a child by a program with a map of files. */
static void overlay(int out[2]) {
    struct inheritance replaces = {.flags = SPAWN_EXEC};
    int map[3] = {SPAWN_FDCLOSED, out[1], 2};
    spawnp("sh", 3, map, &replaces, script("test ! -e /proc/$$/fd/0 && test ! -e /proc/$$/fd/3 && echo $0"), NULL);
    _exit(1);
}

void spawn_overlays(void) {
    char printed[16] = "";
    int out[2];
    check(pipe(out) == 0);
    pid_t child = fork();
    if (!child) overlay(out);
    ends_with(child, 0);
    check(read(out[0], printed, sizeof printed - 1) == 8 && strcmp(printed, "/bin/sh\n") == 0);
    check(close(out[0]) == 0 && close(out[1]) == 0);
}

/* What a daemon says of itself, to the pipe that the caller has. */
static void tell_as_daemon(int to, pid_t parent) {
    char folder[64] = "", text[100];
    mode_t mask = umask(0);
    check(getcwd(folder, sizeof folder) && isatty(0) == 0);
    int length = snprintf(text, sizeof text, "%s %d %d %d", folder, getpid() != parent, getsid(0) == getpid(),
                          (int)mask);
    check(write(to, text, (size_t)length) == length);
    _exit(0);
}

/* A child that becomes a daemon, which the caller sees as an end with the status. */
static void becomes_daemon(unsigned flags, int status, const char *expected) {
    char text[100] = "";
    int pipes[2];
    check(pipe(pipes) == 0);
    pid_t child = fork();
    if (!child) {
        umask(022);
        if (chdir("/tmp") || procmgr_daemon(status, flags)) _exit(99);
        tell_as_daemon(pipes[1], child);
    }
    check(close(pipes[1]) == 0);
    ends_with(child, status);
    while (read(pipes[0], text + strlen(text), sizeof text - 1 - strlen(text)) > 0) continue;
    if (strcmp(text, expected) != 0) fprintf(stderr, "said: %s\n", text);
    check(strcmp(text, expected) == 0 && close(pipes[0]) == 0);
}

void daemons(void) {
    becomes_daemon(PROCMGR_DAEMON_NOCLOSE, 3, "/ 1 1 0");
    becomes_daemon(PROCMGR_DAEMON_NOCLOSE | PROCMGR_DAEMON_NOCHDIR | PROCMGR_DAEMON_KEEPUMASK, 4, "/tmp 1 1 18");
    becomes_daemon(0, 5, ""); /* its pipe is closed, so it can't say anything */
    fails(procmgr_daemon(0, 0x10), EINVAL);
    check(procmgr_ability(0, PROCMGR_ADN_ROOT | PROCMGR_AOP_ALLOW | PROCMGR_AID_IO, PROCMGR_AID_EOL) == EOK);
    check(procmgr_ability(getpid(), PROCMGR_AID_EOL) == EOK);
    fails(procmgr_ability(getpid() + 1, PROCMGR_AID_EOL), ESRCH);
}

/* A program that has a kernel stays the same process, with its channels. */
void daemon_with_channels(void) {
    struct _pulse pulse;
    unsigned keeps = PROCMGR_DAEMON_NOCHDIR | PROCMGR_DAEMON_NODEVNULL | PROCMGR_DAEMON_KEEPUMASK;
    pid_t pid = getpid();
    int chid = ChannelCreate(0), coid = attach(chid);
    check(procmgr_daemon(9, keeps) == 0 && getpid() == pid && MsgSendPulse(coid, 10, 3, 4) == 0);
    check(MsgReceivePulse(chid, &pulse, sizeof pulse, NULL) == 0 && pulse.value.sival_int == 4);
    check(ConnectDetach(coid) == 0 && ChannelDestroy(chid) == 0);
}
