/* A client of little patience: TimerTimeout ends its waits for a mutex, a semaphore, a condition, a thread and a
 * time. */
#include <errno.h>
#include <pthread.h>
#include <semaphore.h>
#include <stdatomic.h>
#include <stdio.h>
#include <stdlib.h>
#include <string.h>
#include <sys/neutrino.h>
#include <time.h>
#include <unistd.h>

static pthread_mutex_t mutex = PTHREAD_RMUTEX_INITIALIZER;
static pthread_mutex_t other = PTHREAD_MUTEX_INITIALIZER;
static pthread_cond_t cond = PTHREAD_COND_INITIALIZER;
static sem_t free_to_go;
static atomic_int waits;

static void limit(int states, uint64_t nsec)
{
    struct sigevent event;

    SIGEV_UNBLOCK_INIT(&event);
    if (TimerTimeout(CLOCK_MONOTONIC, states, &event, &nsec, NULL) == -1)
        printf("TimerTimeout: %s\n", strerror(errno));
}

static const char *result(int error)
{
    return error == EOK ? "ok" : strerror(error);
}

static void *client(void *arg)
{
    struct timespec minute = {60, 0}, left;

    limit(_NTO_TIMEOUT_MUTEX, 2000000);
    printf("mutex: %s\n", result(pthread_mutex_lock(&mutex)));
    limit(_NTO_TIMEOUT_SEM, 2000000);
    printf("semaphore: %s\n", result(sem_wait(&free_to_go) == -1 ? errno : EOK));
    pthread_mutex_lock(&other);
    limit(_NTO_TIMEOUT_CONDVAR, 2000000);
    printf("condition: %s\n", result(pthread_cond_wait(&cond, &other)));
    pthread_mutex_unlock(&other);
    limit(_NTO_TIMEOUT_NANOSLEEP, 2000000);
    printf("sleep: %s", result(nanosleep(&minute, &left) == -1 ? errno : EOK));
    printf(", left: %s\n", left.tv_sec > 50 ? "most of it" : "?");
    limit(_NTO_TIMEOUT_SIGSUSPEND, 1);
    sem_post(&free_to_go);
    limit(_NTO_TIMEOUT_SEM, 2000000);
    printf("semaphore: %s\n", result(sem_wait(&free_to_go) == -1 ? errno : EOK));
    atomic_store(&waits, 1);
    sem_wait(&free_to_go); /* without a timeout */
    return arg;
}

int main(void)
{
    pthread_t thread;
    int error, timeouts = 0;

    sem_init(&free_to_go, 0, 0);
    pthread_mutex_lock(&mutex);
    pthread_mutex_lock(&mutex);
    setvbuf(stdout, NULL, _IOLBF, 0);
    pthread_create(&thread, NULL, client, NULL);
    for (limit(_NTO_TIMEOUT_JOIN, 2000000); (error = pthread_join(thread, NULL)) == ETIMEDOUT; timeouts++) {
        if (atomic_exchange(&waits, 0))
            sem_post(&free_to_go);
        limit(_NTO_TIMEOUT_JOIN, 2000000);
    }
    printf("join: %s, after timeouts: %s\n", result(error), timeouts ? "yes" : "no");
    return EXIT_SUCCESS;
}
