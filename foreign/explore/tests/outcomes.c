/* outcomes NAME: a program for each report of balsaeuchre-explore, and a program that passes. */
#include <errno.h>
#include <pthread.h>
#include <signal.h>
#include <stdio.h>
#include <stdlib.h>
#include <string.h>
#include <sys/neutrino.h>
#include <sys/wait.h>
#include <time.h>
#include <unistd.h>

int hosts_create(pthread_t *, const pthread_attr_t *, void *(*)(void *), void *) __asm__("pthread_create");

static int chid, coid;
static pthread_mutex_t lock = PTHREAD_MUTEX_INITIALIZER, other = PTHREAD_MUTEX_INITIALIZER;

static void *receive(void *argument) {
    char room[8];
    pthread_setname_np(pthread_self(), "server");
    MsgReceive(chid, room, sizeof room, NULL);
    return argument;
}

static void deadlock(void) {
    pthread_t thread;
    pthread_create(&thread, NULL, receive, NULL);
    MsgSend(coid, "x", 1, NULL, 0);
}

static void *lock_both(void *argument) {
    pthread_mutex_lock(&other);
    pthread_mutex_lock(&lock);
    pthread_mutex_unlock(&lock);
    pthread_mutex_unlock(&other);
    return argument;
}

/* The two threads take two locks in different orders. */
static void locks(void) {
    pthread_t thread;
    pthread_create(&thread, NULL, lock_both, NULL);
    pthread_mutex_lock(&lock);
    pthread_mutex_lock(&other);
    pthread_mutex_unlock(&other);
    pthread_mutex_unlock(&lock);
    pthread_join(thread, NULL);
}

static int *volatile nowhere;
static void crash(void) { *nowhere = 1; }
static void status(void) { exit(3); }

/* It prints a byte that isn't UTF-8, and characters that are. */
static void garbles(void) {
    fputs("\xff\xc3\xbc \xf0\x9f\x98\x80 \"\\\t\xed\xa0\x80\n", stderr);
    exit(4);
}

static void badf(void) { MsgSend(coid + 1, "x", 1, NULL, 0); }

static void endless(void) {
    for (;;) MsgSendPulse(coid + 1, 10, 1, 1);
}

static void forks(void) {
    if (!fork()) _exit(0);
    wait(NULL);
}

static void *attach(void *argument) {
    ConnectAttach(0, 0, chid, _NTO_SIDE_CHANNEL, 0);
    return argument;
}

static void unknown(void) {
    pthread_t thread;
    hosts_create(&thread, NULL, attach, NULL);
    pthread_join(thread, NULL);
}

/* It waits in a function of the host that no header redirects. */
static void waits(void) {
    int ends[2];
    char byte;
    if (!pipe(ends) && read(ends[0], &byte, 1) == 1) exit(5);
}

/* The sleep takes no time of the clock. */
static void passes(void) {
    struct timespec begin, end;
    clock_gettime(CLOCK_MONOTONIC, &begin);
    sleep(3600);
    clock_gettime(CLOCK_MONOTONIC, &end);
    printf("%ld s\n", (long)(end.tv_sec - begin.tv_sec));
}

#define CASE(name) \
    { #name, name }
static const struct {
    const char *name;
    void (*run)(void);
} cases[] = {
    CASE(deadlock), CASE(locks),   CASE(crash),  CASE(status),  CASE(badf),  CASE(endless),
    CASE(forks),    CASE(unknown), CASE(passes), CASE(garbles), CASE(waits),
};

int main(int count, char **words) {
    chid = ChannelCreate(0);
    coid = ConnectAttach(0, 0, chid, _NTO_SIDE_CHANNEL, 0);
    for (size_t at = 0; at < sizeof cases / sizeof *cases; at++) {
        if (count > 1 && !strcmp(words[1], cases[at].name)) cases[at].run();
    }
    return 0;
}
