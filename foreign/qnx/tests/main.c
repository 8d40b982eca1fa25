/* tests [--rounds N] [NAME..]: runs these tests, or all, and prints a line for each. */
#include "tests.h"

int rounds = 1000;

#define TEST(name) \
    { #name, name }
static const struct {
    const char *name;
    void (*run)(void);
} tests[] = {
    TEST(channels),
    TEST(connections),
    TEST(flags),
    TEST(peers),
    TEST(limits),
    TEST(disconnects),
    TEST(sends),
    TEST(receives),
    TEST(replies),
    TEST(reads),
    TEST(infos),
    TEST(restarts),
    TEST(keys),
    TEST(vectors),
    TEST(wrong_parts),
    TEST(not_cancelled),
    TEST(codes),
    TEST(values),
    TEST(notes),
    TEST(pulse_errors),
    TEST(pulses_received),
    TEST(events),
    TEST(event_errors),
    TEST(verified),
    TEST(pulse_timers),
    TEST(host_timers),
    TEST(timer_errors),
    TEST(timer_calls),
    TEST(clocks),
    TEST(timeouts),
    TEST(join_timeouts),
    TEST(timed_joins),
    TEST(timeout_errors),
    TEST(priorities),
    TEST(inherited),
    TEST(policies),
    TEST(attributes),
    TEST(controls),
    TEST(seats),
    TEST(reserved),
    TEST(deaths),
    TEST(first_calls),
    TEST(forks),
    TEST(delays),
    TEST(sleepers),
    TEST(interrupted),
    TEST(handlers),
    TEST(in_handlers),
    TEST(many_signals),
    TEST(cancelled),
    TEST(many_cancelled),
    TEST(lives),
    TEST(crowds),
    TEST(echo_1_1),
    TEST(echo_40_8),
    TEST(headers),
    TEST(names),
    TEST(shown),
    TEST(circles),
    TEST(quits),
    TEST(at_the_limit),
    TEST(many_notes),
    TEST(set_anew),
    TEST(file_0),
    TEST(created),
    TEST(jumps),
    TEST(forks_in_handlers),
    TEST(small_stacks),
    TEST(interrupts),
    TEST(shared_lines),
    TEST(interrupt_signals),
    TEST(interrupt_waits),
    TEST(interrupt_errors),
    TEST(sleep_limits),
    TEST(used_up),
    TEST(semaphore_limits),
    TEST(mutex_limits),
    TEST(condition_limits),
    TEST(logs),
    TEST(logs_in_buffers),
    TEST(spawns),
    TEST(spawn_files),
    TEST(spawn_of_nothing),
    TEST(spawn_inherits),
    TEST(spawn_lists),
    TEST(spawn_overlays),
    TEST(daemons),
    TEST(daemon_with_channels),
    TEST(client_info),
    TEST(pauses),
    TEST(pools_of_pulses),
    TEST(devices),
    TEST(small_headers),
    TEST(dispatched),
    TEST(dispatched_others),
    TEST(dispatched_pulses),
    TEST(dispatched_names),
    TEST(dispatch_ends),
    TEST(dispatch_cancelled),
    TEST(dispatch_errors),
    TEST(selected),
    TEST(deselected),
    TEST(select_errors),
    TEST(pools),
    TEST(pool_limits),
    TEST(pool_selves),
    TEST(pool_ends),
    TEST(pool_errors),
};

pthread_t start(void *(*work)(void *), void *argument) {
    pthread_t thread;
    check(pthread_create(&thread, NULL, work, argument) == 0);
    return thread;
}

long result_of(pthread_t thread) {
    void *result;
    check(pthread_join(thread, &result) == 0);
    return (long)result;
}

int attach(int chid) {
    int coid = ConnectAttach(ND_LOCAL_NODE, 0, chid, _NTO_SIDE_CHANNEL, 0);
    check(coid > 0 && coid & _NTO_SIDE_CHANNEL);
    return coid;
}

void until_state(int tid, int state) {
    while (neutrino_state(tid) != state) usleep(50);
}

void set_timeout(int states, uint64_t nanoseconds) {
    check(TimerTimeout(CLOCK_MONOTONIC, states, NULL, &nanoseconds, NULL) == 0);
}

static void *send_hello(void *argument) {
    struct client *client = argument;
    check(getprio(0) > 0); /* takes a place */
    client->tid = SchedGet(0, 0, NULL) == -1 ? -1 : client->tid;
    client->status = MsgSend(client->coid, "hello", 6, client->reply, sizeof client->reply);
    client->error = client->status == -1 ? errno : 0;
    return NULL;
}

void begin_send(struct client *client, int coid) {
    static const struct client none;
    *client = none;
    memcpy(client->reply, "...............", 16);
    client->coid = coid;
    client->thread = start(send_hello, client);
    for (;;) { /* its tid isn't known here, but only this thread is blocked in a send */
        for (int tid = 1; tid <= 60; tid++) {
            int state = neutrino_state(tid);
            if (state != STATE_SEND && state != STATE_REPLY) continue;
            client->tid = tid;
            return;
        }
        usleep(50);
    }
}

void end_send(struct client *client) { result_of(client->thread); }

int receive(int chid) {
    char room[64];
    return MsgReceive(chid, room, sizeof room, NULL);
}

static int is_asked_for(const char *name, int count, char **words) {
    int named = 0;
    for (int at = 1; at < count; at++) {
        if (strcmp(words[at], "--rounds") == 0) at++;
        else if (strcmp(words[at], name) == 0) return 1;
        else named = 1;
    }
    return !named;
}

int main(int count, char **words) {
    int ran = 0;
    setvbuf(stdout, NULL, _IOLBF, 0);
    for (int at = 1; at + 1 < count; at++) {
        if (strcmp(words[at], "--rounds") == 0) rounds = atoi(words[at + 1]);
    }
    for (size_t at = 0; at < sizeof tests / sizeof *tests; at++) {
        if (!is_asked_for(tests[at].name, count, words)) continue;
        check(setprio(0, 10) > 0);
        tests[at].run();
        ran++;
        printf("%s\n", tests[at].name);
    }
    return ran ? 0 : 2;
}
