// Lets only one thread of a program run at a time, for bench/instructions.py. A thread runs until it sleeps,
// waits for another thread's end, or ends. Then the next thread runs that can, in the order in which they were
// made. The program sees one processor, so no thread polls before it sleeps. This file is loaded before the C
// library. It serves programs that sleep at a futex through `syscall`. A time limit of a sleep is ignored.
#define _GNU_SOURCE
#include <dlfcn.h>
#include <errno.h>
#include <linux/futex.h>
#include <pthread.h>
#include <sched.h>
#include <stdarg.h>
#include <stdlib.h>
#include <string.h>
#include <sys/syscall.h>
#include <unistd.h>

enum { THREADS = 64 };

// A thread. It waits for a futex's word, for another thread's end, or for nothing. Thread 0 is the program's
// first.
static struct thread {
    pthread_t id;
    void *(*start)(void *);
    void *argument;
    const void *awaited;
    int ended, pipe[2];
} threads[THREADS];
static int count, running;

// A call of the system without the C library, whose instructions would be counted.
static long ask(long number, long a, long b, long c, long d, long e, long f) {
    register long r10 __asm__("r10") = d, r8 __asm__("r8") = e, r9 __asm__("r9") = f;
    long result;
    __asm__ volatile("syscall"
                     : "=a"(result)
                     : "a"(number), "D"(a), "S"(b), "d"(c), "r"(r10), "r"(r8), "r"(r9)
                     : "rcx", "r11", "memory");
    return result;
}

static void wait_for_turn(int me) {
    char byte;
    if (ask(SYS_read, threads[me].pipe[0], (long)&byte, 1, 0, 0, 0) != 1) abort();
}

// Lets the next thread run that can.
static void pass_turn(void) {
    for (int step = 1; step <= count; step++) {
        int next = (running + step) % count;
        if (threads[next].awaited || threads[next].ended) continue;
        running = next;
        if (ask(SYS_write, threads[next].pipe[1], (long)"", 1, 0, 0, 0) != 1) abort();
        return;
    }
    abort(); // each thread waits
}

// The running thread waits for this, until `awake` lets it run again.
static void await(const void *awaited) {
    int me = running;
    threads[me].awaited = awaited;
    pass_turn();
    wait_for_turn(me);
}

// Lets threads run again that wait for this, at most so many. Returns their number.
static long awake(const void *awaited, long most) {
    long woken = 0;
    for (int k = 0; k < count && woken < most; k++) {
        if (threads[k].awaited != awaited) continue;
        threads[k].awaited = NULL;
        woken++;
    }
    return woken;
}

static long futex(const volatile int *word, int operation, int value) {
    operation &= FUTEX_CMD_MASK;
    if (operation == FUTEX_WAKE || operation == FUTEX_WAKE_BITSET) return awake((const void *)word, value);
    if (operation != FUTEX_WAIT && operation != FUTEX_WAIT_BITSET) abort();
    if (*word != value) return -EAGAIN;
    await((const void *)word);
    return 0;
}

long syscall(long number, ...) {
    long given[6];
    va_list list;
    va_start(list, number);
    for (int k = 0; k < 6; k++) given[k] = va_arg(list, long);
    va_end(list);
    long result = number == SYS_futex ? futex((int *)given[0], (int)given[1], (int)given[2])
                                      : ask(number, given[0], given[1], given[2], given[3], given[4], given[5]);
    if (result >= 0 || result < -4095) return result;
    errno = (int)-result;
    return -1;
}

static void *begin(void *thread) {
    struct thread *own = thread;
    wait_for_turn((int)(own - threads));
    void *result = own->start(own->argument);
    own->ended = 1;
    awake(own, THREADS);
    pass_turn();
    return result;
}

static void add(void) {
    if (count == THREADS || pipe(threads[count].pipe)) abort();
    count++;
}

int pthread_create(pthread_t *id, const pthread_attr_t *kind, void *(*start)(void *), void *argument) {
    int (*create)(pthread_t *, const pthread_attr_t *, void *(*)(void *), void *) = dlsym(RTLD_NEXT, "pthread_create");
    struct thread *own = &threads[count];
    add();
    own->start = start;
    own->argument = argument;
    int refused = create(&own->id, kind, begin, own);
    own->ended = refused;
    *id = own->id;
    return refused;
}

int pthread_join(pthread_t id, void **result) {
    int (*join)(pthread_t, void **) = dlsym(RTLD_NEXT, "pthread_join");
    for (int k = 1; k < count; k++) {
        if (pthread_equal(threads[k].id, id) && !threads[k].ended) await(&threads[k]);
    }
    return join(id, result);
}

int sched_getaffinity(pid_t process, size_t size, cpu_set_t *set) {
    (void)process;
    memset(set, 0, size);
    CPU_SET_S(0, size, set);
    return 0;
}

__attribute__((constructor)) static void first(void) { add(); }
