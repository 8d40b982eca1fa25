/* A supervisor: it spawns programs, sees their ends, and starts one of them again. */
#include <errno.h>
#include <pthread.h>
#include <process.h>
#include <signal.h>
#include <spawn.h>
#include <stdio.h>
#include <stdlib.h>
#include <string.h>
#include <sys/neutrino.h>
#include <sys/wait.h>
#include <unistd.h>

#define CODE_CHILD _PULSE_CODE_MINAVAIL
#define CHILDREN 3

static int coid;

static const char *const scripts[CHILDREN] = {"exit 0", "exit 3", "kill -TERM $$"};

static pid_t start(int number)
{
    struct inheritance inherit;
    char *argv[] = {"sh", "-c", (char *)(uintptr_t)scripts[number], NULL};
    int map[] = {0, 1, 2};

    memset(&inherit, 0, sizeof inherit);
    inherit.flags = SPAWN_SETGROUP;
    inherit.pgroup = SPAWN_NEWPGROUP;
    return spawnp("sh", 3, map, &inherit, argv, NULL);
}

/* Waits for the children, and tells the supervisor of each end by a pulse, whose value is the pid. */
static void *watch(void *arg)
{
    siginfo_t info;

    while (waitid(P_ALL, 0, &info, WEXITED | WNOWAIT) == 0) {
        MsgSendPulse(coid, 10, CODE_CHILD, info.si_pid);
        while (waitid(P_PID, (id_t)info.si_pid, &info, WEXITED | WNOHANG | WNOWAIT) == 0)
            delay(1);
    }
    return arg;
}

static void report(int number, int status)
{
    if (WIFEXITED(status))
        printf("child %d: status %d\n", number, WEXITSTATUS(status));
    else
        printf("child %d: signal %d\n", number, WTERMSIG(status));
}

int main(void)
{
    struct _pulse pulse;
    pthread_t watcher;
    int chid = ChannelCreate(0), ends = 0, again = 1, status[CHILDREN] = {-1, -1, -1};
    pid_t pids[CHILDREN];

    setvbuf(stdout, NULL, _IOLBF, 0);
    coid = ConnectAttach(0, 0, chid, _NTO_SIDE_CHANNEL, 0);
    for (int i = 0; i < CHILDREN; i++) {
        if ((pids[i] = start(i)) == -1)
            perror("spawnp");
    }
    pthread_create(&watcher, NULL, watch, NULL);
    while (ends < CHILDREN + 1) {
        if (MsgReceivePulse(chid, &pulse, sizeof pulse, NULL) == -1)
            break;
        if (pulse.code != CODE_CHILD)
            continue;
        for (int i = 0; i < CHILDREN; i++) {
            if (pids[i] != pulse.value.sival_int)
                continue;
            pid_t old = pids[i];
            ends++;
            if (i == 1 && again-- > 0)
                pids[i] = start(i);
            waitpid(old, &status[i], 0);
        }
    }
    pthread_join(watcher, NULL);
    for (int i = 0; i < CHILDREN; i++)
        report(i, status[i]);
    printf("child 1 was started again: %s\n", again == -1 ? "yes" : "no");
    printf("one more, and wait: %d\n", WEXITSTATUS(spawnl(P_WAIT, "/bin/sh", "sh", "-c", "exit 5", NULL)));
    printf("a program that isn't there: %s\n",
           spawnl(P_NOWAIT, "/no/such/program", "x", NULL) == -1 ? strerror(errno) : "?");
    return EXIT_SUCCESS;
}
