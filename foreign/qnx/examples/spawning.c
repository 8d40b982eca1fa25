/* Programs that are started by each of the variants of spawn, and a daemon. Their ends come as pulses' values. */
#include <errno.h>
#include <process.h>
#include <spawn.h>
#include <stdio.h>
#include <stdlib.h>
#include <string.h>
#include <sys/neutrino.h>
#include <sys/procmgr.h>
#include <sys/wait.h>
#include <unistd.h>

static char *const environment[] = {"STATUS=6", NULL};
static char *const by_environment[] = {"sh", "-c", "exit $STATUS", NULL};
static char *const by_number[] = {"sh", "-c", "exit 7", NULL};

static void report(const char *name, pid_t pid)
{
    int status = 0;

    if (pid == -1 || waitpid(pid, &status, 0) != pid)
        printf("%s: %s\n", name, strerror(errno));
    else
        printf("%s: %d\n", name, WEXITSTATUS(status));
}

/* A child's output, by a map of its files. */
static void read_child(void)
{
    char *argv[] = {"sh", "-c", "echo to file 1; echo to file 3 >&3", NULL}, text[64] = "";
    int pipes[2], map[4] = {0, SPAWN_FDCLOSED, 2, SPAWN_FDCLOSED};
    ssize_t length, all = 0;

    if (pipe(pipes) == -1)
        return;
    map[1] = map[3] = pipes[1];
    report("spawn", spawn("/bin/sh", 4, map, NULL, argv, NULL));
    close(pipes[1]);
    while ((length = read(pipes[0], text + all, sizeof text - 1 - (size_t)all)) > 0)
        all += length;
    fputs(text, stdout);
    close(pipes[0]);
}

/* A daemon has a session of its own, and its parent sees the end of the program that it was. */
static void start_daemon(void)
{
    char text[64] = "";
    int pipes[2];
    pid_t pid;

    if (pipe(pipes) == -1 || (pid = fork()) == -1)
        return;
    if (pid == 0) {
        int failed = procmgr_daemon(3, PROCMGR_DAEMON_NOCLOSE);
        dprintf(pipes[1], "result %d, own session: %s", failed, getsid(0) == getpid() ? "yes" : "no");
        _exit(0);
    }
    close(pipes[1]);
    report("the daemon's parent", pid);
    if (read(pipes[0], text, sizeof text - 1) > 0)
        printf("the daemon: %s\n", text);
    close(pipes[0]);
}

/* A child that another program replaces. */
static void overlay(void)
{
    pid_t pid = fork();

    if (pid == 0) {
        spawnlp(P_OVERLAY, "sh", "sh", "-c", "exit 9", NULL);
        _exit(1);
    }
    report("overlay", pid);
}

int main(void)
{
    setvbuf(stdout, NULL, _IOLBF, 0);
    printf("ability: %d\n", procmgr_ability(0, PROCMGR_ADN_NONROOT | PROCMGR_AOP_ALLOW | PROCMGR_AID_SPAWN,
                                            PROCMGR_ADN_ROOT | PROCMGR_AOP_DENY | PROCMGR_AOP_LOCK | PROCMGR_AID_EOL));
    report("spawnl", spawnl(P_NOWAIT, "/bin/sh", "sh", "-c", "exit 1", NULL));
    report("spawnlp", spawnlp(P_NOWAIT, "sh", "sh", "-c", "exit 2", NULL));
    report("spawnle", spawnle(P_NOWAIT, "/bin/sh", "sh", "-c", "exit $STATUS", NULL, environment));
    report("spawnlpe", spawnlpe(P_NOWAIT, "sh", "sh", "-c", "exit $STATUS", NULL, environment));
    report("spawnv", spawnv(P_NOWAIT, "/bin/sh", by_number));
    report("spawnvp", spawnvp(P_NOWAIT, "sh", by_number));
    report("spawnve", spawnve(P_NOWAIT, "/bin/sh", by_environment, environment));
    report("spawnvpe", spawnvpe(P_NOWAIT, "sh", by_environment, environment));
    report("spawnv", spawnv(P_NOWAIT, "/no/such/program", by_number));
    overlay();
    start_daemon();
    read_child();
    printf("the system manager: %s\n", ConnectAttach(0, SYSMGR_PID, SYSMGR_CHID, SYSMGR_COID, 0) == -1 ? "no" : "yes");
    return EXIT_SUCCESS;
}
