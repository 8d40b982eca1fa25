/* Small calls and names: confstr, the thread's masks and policies, and modes of sopen. */
#include <confname.h>
#include <errno.h>
#include <fcntl.h>
#include <pthread.h>
#include <share.h>
#include <stdio.h>
#include <stdlib.h>
#include <string.h>
#include <sync.h>
#include <sys/neutrino.h>
#include <unistd.h>

int main(void)
{
    sync_t sync = PTHREAD_RMUTEX_INITIALIZER;
    struct sched_param param;
    char text[256];
    unsigned mask = 3;

    printf("the host has a name: %s\n", confstr(_CS_HOSTNAME, text, sizeof text) > 1 ? "yes" : "no");
    printf("and a system: %s\n", confstr(_CS_SYSNAME, text, sizeof text) > 0 ? text : "no");
    ThreadCtl(_NTO_TCTL_RUNMASK, (void *)(uintptr_t)1);
    if (ThreadCtl(_NTO_TCTL_RUNMASK_GET_AND_SET, &mask) == 0)
        printf("the old mask: %u\n", mask);
    if (ThreadCtl(_NTO_TCTL_ONE_THREAD_HOLD, (void *)(uintptr_t)gettid()) == -1)
        printf("hold: %s\n", errno == ENOTSUP ? "not supported" : strerror(errno));
    memset(&param, 0, sizeof param);
    param.sched_priority = 12;
    printf("to the head: %d", SchedSet(0, 0, SCHED_ADJTOHEAD, &param));
    printf(", priority %d\n", getprio(0));
    pthread_mutex_lock(&sync);
    printf("locked again: %d\n", pthread_mutex_lock(&sync));
    printf("modes: %s\n", SH_DENYNO != SH_DENYRW ? "differ" : "the same");
    return EXIT_SUCCESS;
}
