/* tests [--rounds N] [NAME..]: runs these tests, or all, and prints a line for each. */
#include "tests.h"

const struct neutrino_thread few[4] = {{1, SERVER, 10}, {2, CLIENTS, 20}, {3, CLIENTS, 30}, {4, OTHERS, 5}};
int rounds = 2000;

#define TEST(name) \
    { #name, name }
static const struct {
    const char *name;
    void (*run)(void);
} tests[] = {
    TEST(not_joined), TEST(joins),     TEST(versions),      TEST(rosters),    TEST(two_kernels),
    TEST(messages),   TEST(lengths),   TEST(long_messages), TEST(pulses),     TEST(priorities),
    TEST(limits),     TEST(numbers),   TEST(unblocks),      TEST(timeouts),   TEST(timeout_states),
    TEST(detaches),   TEST(destroys),  TEST(shutdowns),     TEST(forks),      TEST(cancels),
    TEST(exits),      TEST(signals),   TEST(memory),        TEST(interrupts), TEST(cancelled),
    TEST(looks),      TEST(hooks),     TEST(echo_1_1),      TEST(echo_8_4),   TEST(echo_32_16),
    TEST(late_8_4),   TEST(late_40_8), TEST(parts),         TEST(acts),       TEST(full_channels),
};

neutrino *open_few(void) {
    neutrino *kernel = neutrino_open(few, 4);
    check(kernel && neutrino_join(kernel, 1) == 0);
    return kernel;
}

void close_few(neutrino *kernel) { check(neutrino_leave() == 0 && neutrino_close(kernel) == 0); }

void become(neutrino *kernel, int tid) { check(neutrino_leave() == 0 && neutrino_join(kernel, tid) == 0); }

pthread_t start(void *(*work)(void *), void *argument) {
    pthread_t thread;
    check(pthread_create(&thread, NULL, work, argument) == 0);
    return thread;
}

long result_of(pthread_t thread) {
    void *result;
    check(pthread_join(thread, &result) == 0);
    return (long)result;
}

void *send_once(void *argument) {
    struct job *job = argument;
    check(neutrino_join(job->kernel, job->tid) == 0);
    memcpy(job->reply, "........", sizeof job->reply);
    if (!job->coid) job->coid = ConnectAttach(ND_LOCAL_NODE, SERVER, job->chid, _NTO_SIDE_CHANNEL, 0);
    check(job->coid > 0);
    if (job->states) set_timeout(job->states, job->time);
    long status = MsgSend(job->coid, "hello", 5, job->reply, sizeof job->reply);
    long error = status == -1 ? -errno : status;
    check(neutrino_leave() == 0);
    return (void *)error;
}

void *receive_once(void *argument) {
    struct job *job = argument;
    char room[8];
    check(neutrino_join(job->kernel, job->tid) == 0);
    if (job->states) set_timeout(job->states, job->time);
    int rcvid = MsgReceive(job->chid, room, sizeof room, NULL);
    long error = rcvid == -1 ? -errno : rcvid;
    check(neutrino_leave() == 0);
    return (void *)error;
}

void until_state(int tid, int state) {
    while (neutrino_state(tid) != state) usleep(50);
}

void set_timeout(int states, uint64_t nanoseconds) {
    check(TimerTimeout(CLOCK_MONOTONIC, states, NULL, &nanoseconds, NULL) == 0);
}

static int is_asked_for(const char *name, int count, char **words) {
    int named = 0;
    for (int at = 1; at < count; at++) {
        if (strcmp(words[at], "--rounds") == 0) at++;
        else if (strcmp(words[at], name) == 0) return 1;
        else named = 1;
    }
    return !named;
}

int main(int count, char **words) {
    int ran = 0;
    setvbuf(stdout, NULL, _IOLBF, 0);
    for (int at = 1; at + 1 < count; at++) {
        if (strcmp(words[at], "--rounds") == 0) rounds = atoi(words[at + 1]);
    }
    for (size_t at = 0; at < sizeof tests / sizeof *tests; at++) {
        if (!is_asked_for(tests[at].name, count, words)) continue;
        tests[at].run();
        ran++;
        printf("%s\n", tests[at].name);
    }
    return ran ? 0 : 2;
}
