/* A server and its clients in C: each call, with its completions.
 * exchange          prints the completions of a run
 * exchange --time N times N rounds of Send, Receive and Reply */
#define _POSIX_C_SOURCE 199309L
#include "balsaeuchre.h"

#include <stdio.h>
#include <stdlib.h>
#include <string.h>
#include <time.h>

enum { SERVER = 1, CLIENT = 2, OTHER = 3 };

static const char *const error_names[] = {"ok",       "srch", "badf",      "inval",     "again",    "intr",   "busy",
                                          "nomemory", "down", "exhausted", "tracefull", "nothread", "closed", "isopen"};
static const char *const state_names[] = {"", "ready", "send-blocked", "receive-blocked", "reply-blocked"};

static balsaeuchre kernel = BALSAEUCHRE_NONE;
static uint8_t room[4096];
static balsaeuchre_event event;

static void show_pulse(const balsaeuchre_ending *e) {
    printf("pulse of call %llu, priority %u, ", (unsigned long long)e->id, e->priority);
    if (e->what == BALSAEUCHRE_WHAT_USER) printf("code %d, value %d", e->pulse_code, (int)e->value);
    if (e->what == BALSAEUCHRE_WHAT_UNBLOCK) printf("unblock %llu", (unsigned long long)e->rcvid);
    if (e->what == BALSAEUCHRE_WHAT_DISCONNECT) printf("disconnect %u", e->process);
}

static void show_mark(const balsaeuchre_ending *e) {
    switch (e->mark) {
    case BALSAEUCHRE_DONE:
        printf("done");
        break;
    case BALSAEUCHRE_FAILED:
        printf("failed %s", error_names[e->errno_]);
        break;
    case BALSAEUCHRE_CHANNEL:
        printf("channel %llu", (unsigned long long)e->id);
        break;
    case BALSAEUCHRE_CONNECTION:
        printf("connection %llu", (unsigned long long)e->id);
        break;
    case BALSAEUCHRE_REPLIED:
        printf("replied %lld, %zu copied", (long long)e->status, e->count);
        break;
    case BALSAEUCHRE_MESSAGE:
        printf("message %llu, %zu copied", (unsigned long long)e->rcvid, e->count);
        break;
    case BALSAEUCHRE_ERRORED:
        printf("errored %d", (int)e->value);
        break;
    case BALSAEUCHRE_COUNT:
        printf("%zu copied", e->count);
        break;
    case BALSAEUCHRE_INFORMED:
        printf("thread %u of process %u, priority %u, connection %llu, %zu of %zu bytes, room for %zu", e->sender,
               e->process, e->priority, (unsigned long long)e->id, e->count, e->srcmsglen, e->dstmsglen);
        break;
    case BALSAEUCHRE_PULSED:
        show_pulse(e);
        break;
    case BALSAEUCHRE_THREAD_STATE:
        printf("%s, channel %llu, priority %u", state_names[e->state], (unsigned long long)e->id, e->priority);
        break;
    default:
        exit(3);
    }
}

/* Prints the completions of the event, or the error of the call. */
static void show(const char *what, uint32_t error) {
    if (error) {
        printf("%s: no event, %s\n", what, error_names[error]);
        return;
    }
    printf("%s\n", what);
    for (size_t place = 0; place < event.done.endings; place++) {
        const balsaeuchre_ending *e = &event.rows[place];
        printf("  call %llu of thread %u: ", (unsigned long long)e->call, e->thread);
        show_mark(e);
        if (e->length) printf(" '%.*s'", (int)e->written, (const char *)room + e->start);
        printf("\n");
    }
}

static void open_kernel(void) {
    const balsaeuchre_thread threads[] = {{SERVER, 1, 10}, {CLIENT, 2, 20}, {OTHER, 2, 5}};
    event.bytes = room;
    event.bytes_len = sizeof room;
    uint32_t error = balsaeuchre_open(threads, 3, &kernel);
    if (error) {
        fprintf(stderr, "no kernel: %s\n", error_names[error]);
        exit(1);
    }
}

/* Returns whether the rows of a receive and of an Info have the same data of the message. */
static int says_same(const balsaeuchre_ending *a, const balsaeuchre_ending *b) {
    return a->sender == b->sender && a->process == b->process && a->priority == b->priority && a->id == b->id &&
           a->count == b->count && a->srcmsglen == b->srcmsglen && a->dstmsglen == b->dstmsglen;
}

static void show_messages(uint64_t chid, uint64_t coid) {
    show("send", balsaeuchre_send(&kernel, CLIENT, coid, "hello", 5, "........", 8, &event));
    show("state", balsaeuchre_thread_state(&kernel, SERVER, CLIENT, &event));
    show("receive", balsaeuchre_receive(&kernel, SERVER, chid, "---", 3, &event));
    balsaeuchre_ending received = event.rows[0];
    uint64_t rcvid = received.rcvid;
    show("info", balsaeuchre_info(&kernel, SERVER, rcvid, &event));
    printf("  %s\n", says_same(&received, &event.rows[0]) ? "as the receive said" : "not as the receive said");
    show("read", balsaeuchre_read(&kernel, SERVER, rcvid, 3, "--", 2, &event));
    show("write", balsaeuchre_write(&kernel, SERVER, rcvid, 2, "abc", 3, &event));
    show("reply", balsaeuchre_reply(&kernel, SERVER, rcvid, 7, "w", 1, &event));
    show("receive", balsaeuchre_receive(&kernel, SERVER, chid, "------", 6, &event));
    show("send", balsaeuchre_send(&kernel, CLIENT, coid, "again", 5, "....", 4, &event));
    rcvid = event.rows[0].rcvid;
    show("unblock", balsaeuchre_unblock(&kernel, OTHER, CLIENT, &event));
    show("receive pulse", balsaeuchre_receive_pulse(&kernel, SERVER, chid, &event));
    show("error", balsaeuchre_error(&kernel, SERVER, rcvid, -4, &event));
}

static void show_pulses(uint64_t chid, uint64_t coid) {
    show("pulse", balsaeuchre_pulse(&kernel, OTHER, coid, 33, 5, -6, &event));
    show("receive pulse", balsaeuchre_receive_pulse(&kernel, SERVER, chid, &event));
    show("priority set", balsaeuchre_priority_set(&kernel, CLIENT, OTHER, 40, &event));
    show("state", balsaeuchre_thread_state(&kernel, SERVER, OTHER, &event));
    show("connect detach", balsaeuchre_connect_detach(&kernel, CLIENT, coid, &event));
    show("receive", balsaeuchre_receive(&kernel, SERVER, chid, NULL, 0, &event));
    show("channel destroy", balsaeuchre_channel_destroy(&kernel, SERVER, chid, &event));
    show("channel create", balsaeuchre_channel_create(&kernel, SERVER, 0, &event));
    show("receive", balsaeuchre_receive(&kernel, SERVER, event.rows[0].id, "++", 2, &event));
    show("shutdown", balsaeuchre_shutdown(&kernel, CLIENT, &event));
}

static void show_run(void) {
    show("channel create", balsaeuchre_channel_create(&kernel, SERVER, 6, &event));
    uint64_t chid = event.rows[0].id;
    show("connect attach", balsaeuchre_connect_attach(&kernel, CLIENT, chid, &event));
    uint64_t coid = event.rows[0].id;
    show_messages(chid, coid);
    show("no such thread", balsaeuchre_shutdown(&kernel, 9, &event));
    show("no such priority", balsaeuchre_pulse(&kernel, CLIENT, coid, 0, 5, -6, &event));
    show_pulses(chid, coid);
}

static void show_answer(const char *what, uint32_t error) { printf("%s: %s\n", what, error_names[error]); }

/* Prints the errors of calls with wrong handles, requests and rosters. */
static void show_refusals(void) {
    const balsaeuchre_thread one[] = {{1, 1, 1}, {1, 2, 3}};
    balsaeuchre none = BALSAEUCHRE_NONE;
    show("no such kind", balsaeuchre_make_plain(&kernel, balsaeuchre_request_of(18, SERVER, 0), &event));
    show_answer("open again", balsaeuchre_open(one, 1, &kernel));
    show_answer("thread twice", balsaeuchre_open(one, 2, &none));
    show("call of none", balsaeuchre_shutdown(&none, 1, &event));
    show_answer("close", balsaeuchre_close(&kernel));
    show_answer("close again", balsaeuchre_close(&kernel));
    show("call of a closed one", balsaeuchre_shutdown(&kernel, SERVER, &event));
}

static double seconds_of(long rounds, uint64_t chid, uint64_t coid) {
    struct timespec start, end;
    clock_gettime(CLOCK_MONOTONIC, &start);
    for (long round = 0; round < rounds; round++) {
        uint32_t sent = balsaeuchre_send(&kernel, CLIENT, coid, "\1\1\1\1", 4, "\0\0\0\0\0\0\0", 8, &event);
        uint32_t received = balsaeuchre_receive(&kernel, SERVER, chid, room + 2048, 16, &event);
        uint32_t replied = balsaeuchre_reply(&kernel, SERVER, event.rows[0].rcvid, 0, NULL, 0, &event);
        if (sent || received || replied || event.done.endings != 2) exit(2);
    }
    clock_gettime(CLOCK_MONOTONIC, &end);
    return (double)(end.tv_sec - start.tv_sec) + (double)(end.tv_nsec - start.tv_nsec) / 1e9;
}

static void time_rounds(long rounds) {
    double least = 1e9;
    balsaeuchre_channel_create(&kernel, SERVER, 0, &event);
    uint64_t chid = event.rows[0].id;
    balsaeuchre_connect_attach(&kernel, CLIENT, chid, &event);
    uint64_t coid = event.rows[0].id;
    for (int repeat = 0; repeat < 5; repeat++) {
        double seconds = seconds_of(rounds, chid, coid);
        if (seconds < least) least = seconds;
    }
    printf("C: %ld rounds, %.1f ns a call\n", rounds, least * 1e9 / (3.0 * (double)rounds));
}

int main(int argc, char **argv) {
    open_kernel();
    if (argc > 2 && strcmp(argv[1], "--time") == 0) {
        time_rounds(atol(argv[2]));
        return balsaeuchre_close(&kernel) ? 1 : 0;
    }
    show_run();
    show_refusals();
    if (balsaeuchre_version() != BALSAEUCHRE_VERSION) printf("the library has another version\n");
    return 0;
}
