/* bench ROUNDS REPEATS [BYTES]: prints the microseconds of a round trip of BYTES (4) between two processes,
 * as the median of REPEATS. It measures the daemon, a Unix socket pair, and a futex at which both processes
 * sleep. If there are two processors, each of the last two has its processes on different processors. */
#define _GNU_SOURCE
#include "tests.h"

#include <linux/futex.h>
#include <stdatomic.h>
#include <sys/mman.h>
#include <sys/socket.h>
#include <sys/syscall.h>
#include <time.h>

enum { MOST = 100 };

static int rounds, repeats;
static size_t length = 4;
static char *sent, *got;
static int ends[2];
struct words {
    _Alignas(64) _Atomic uint32_t there;
    _Alignas(64) _Atomic uint32_t back;
};
static struct words *words;

static void serve_messages(void) {
    name_attach_t *name = name_attach(NULL, "bench", 0);
    check(name);
    for (int round = 0; round < rounds; round++) {
        rcvid_t rcvid = receive_answering_opens(name->chid, got, length, NULL);
        check(rcvid > 0 && MsgReply(rcvid, 0, got, length) == 0);
    }
    check(name_detach(name, 0) == 0);
}

static void send_messages(void) {
    int coid = open_name("bench");
    for (int round = 0; round < rounds; round++) check(MsgSend(coid, sent, length, got, length) == 0);
    ConnectDetach(coid);
}

/* Keeps this process on its first or last processor. */
static void stay(bool is_first) {
    cpu_set_t all, one;
    int at = 0;
    check(sched_getaffinity(0, sizeof all, &all) == 0);
    for (int next = 0; next < CPU_SETSIZE; next++) {
        if (CPU_ISSET(next, &all) && (!is_first || !CPU_ISSET(at, &all))) at = next;
    }
    CPU_ZERO(&one);
    CPU_SET(at, &one);
    check(sched_setaffinity(0, sizeof one, &one) == 0);
}

static void serve_packets(void) {
    stay(true);
    for (int round = 0; round < rounds; round++)
        check(recv(ends[0], got, length, 0) == (ssize_t)length && send(ends[0], got, length, 0) == (ssize_t)length);
}

static void send_packets(void) {
    stay(false);
    for (int round = 0; round < rounds; round++)
        check(send(ends[1], sent, length, 0) == (ssize_t)length && recv(ends[1], got, length, 0) == (ssize_t)length);
}

static void set_word(_Atomic uint32_t *word, uint32_t value) {
    atomic_store(word, value);
    syscall(SYS_futex, word, FUTEX_WAKE, 1, NULL, NULL, 0);
}

static void wait_for_word(_Atomic uint32_t *word, uint32_t old) {
    while (atomic_load(word) == old) syscall(SYS_futex, word, FUTEX_WAIT, old, NULL, NULL, 0);
}

static void serve_words(void) {
    stay(true);
    for (uint32_t round = 1; round <= (uint32_t)rounds; round++) {
        wait_for_word(&words->there, round - 1);
        set_word(&words->back, round);
    }
}

static void send_words(void) {
    stay(false);
    for (uint32_t round = 1; round <= (uint32_t)rounds; round++) {
        set_word(&words->there, round);
        wait_for_word(&words->back, round - 1);
    }
}

static double seconds(void) {
    struct timespec t;
    clock_gettime(CLOCK_MONOTONIC, &t);
    return (double)t.tv_sec + (double)t.tv_nsec / 1e9;
}

static void run(void *work) { ((void (*)(void))work)(); }

static int compare(const void *a, const void *b) {
    double first = *(const double *)a, second = *(const double *)b;
    return first < second ? -1 : first > second;
}

static double median(double *times) {
    qsort(times, (size_t)repeats, sizeof *times, compare);
    return times[repeats / 2];
}

static double measure(void (*serve)(void), void (*send)(void)) {
    memset(words, 0, sizeof *words);
    pid_t server = spawn(run, (void *)serve);
    usleep(50000);
    double start = seconds();
    expect_end(spawn(run, (void *)send));
    double taken = seconds() - start;
    expect_end(server);
    return taken * 1e6 / rounds;
}

int main(int count, char **arguments) {
    double times[3][MOST], parts[2][MOST];
    if (count < 3) return 2;
    rounds = atoi(arguments[1]);
    repeats = atoi(arguments[2]);
    if (count > 3) length = (size_t)atol(arguments[3]);
    sent = calloc(1, length);
    got = calloc(1, length + 64);
    words = mmap(NULL, sizeof *words, PROT_READ | PROT_WRITE, MAP_SHARED | MAP_ANONYMOUS, -1, 0);
    check(repeats > 0 && repeats <= MOST && words != MAP_FAILED && !socketpair(AF_UNIX, SOCK_SEQPACKET, 0, ends));
    for (int turn = 0; turn < repeats; turn++) { /* in turns, because the machine's other work changes */
        times[0][turn] = measure(serve_messages, send_messages);
        times[1][turn] = measure(serve_packets, send_packets);
        times[2][turn] = measure(serve_words, send_words);
        for (int at = 0; at < 2; at++) parts[at][turn] = times[0][turn] / times[at + 1][turn];
    }
    printf("daemon %.2f us, socket pair %.2f us, sleeping futex %.2f us: %.2f and %.2f times\n", median(times[0]),
           median(times[1]), median(times[2]), median(parts[0]), median(parts[1]));
    return 0;
}
