/* A server and a client in two threads, by a desk and its ports. The lock and the sleeping are this program's.
 * That each completion reaches its thread, once and in order, is the library's.
 *
 * ports          prints what it saw
 * ports --time N times N rounds of Send, Receive and Reply */
#define _POSIX_C_SOURCE 200809L
#include "balsaeuchre.h"

#include <pthread.h>
#include <semaphore.h>
#include <stdio.h>
#include <stdlib.h>
#include <string.h>
#include <time.h>

enum { SERVER, CLIENT, THREADS };
enum { SERVER_NUMBER = 1, CLIENT_NUMBER = 2 };

static const char *const state_names[] = {"", "ready", "send-blocked", "receive-blocked", "reply-blocked"};

static balsaeuchre_desk desk;
static pthread_mutex_t lock = PTHREAD_MUTEX_INITIALIZER;
static uint64_t chid;
static int64_t rounds = 1000;

/* A thread: its port, its sleep, and the bytes of its last completion. */
static struct thread {
    balsaeuchre_port port;
    sem_t woken;
    uint8_t bytes[16];
} threads[THREADS];

static void stop(const char *what, long long number) {
    fprintf(stderr, "ports: %s: %lld\n", what, number);
    exit(1);
}

static void wake(uint64_t woken) {
    for (int other = 0; other < THREADS; other++) {
        if (woken >> other & 1) sem_post(&threads[other].woken);
    }
}

/* Makes a call of a thread, and sleeps until it is completed. */
static balsaeuchre_ending call(int self, balsaeuchre_request request, const void *sent, size_t sent_len,
                               size_t room_len) {
    static const uint8_t none[16];
    struct thread *thread = &threads[self];
    balsaeuchre_answer answer;
    pthread_mutex_lock(&lock);
    uint32_t error = balsaeuchre_port_call(&desk, &thread->port, &request, sent_len ? sent : none, sent_len, none,
                                           room_len, thread->bytes, sizeof thread->bytes, &answer);
    pthread_mutex_unlock(&lock);
    if (error) stop("error", error);
    wake(answer.woken);
    if (answer.ended) return answer.ending;
    while (!balsaeuchre_port_poll(&thread->port, &answer.ending, thread->bytes, sizeof thread->bytes)) {
        sem_wait(&thread->woken);
    }
    return answer.ending;
}

/* Checks that the kernel tells of a held message what its receipt tells, and returns its sender. */
static uint8_t sender_of(uint64_t rcvid) {
    balsaeuchre_ending row;
    pthread_mutex_lock(&lock);
    uint32_t is_held = balsaeuchre_look_at_message(&desk, rcvid, &row);
    pthread_mutex_unlock(&lock);
    if (!is_held || row.mark != BALSAEUCHRE_INFORMED) stop("a message that isn't held", (long long)rcvid);
    return row.sender;
}

/* Receives numbers, and replies with their negatives. */
static void *serve(void *unused) {
    for (int64_t round = 0; round < rounds; round++) {
        balsaeuchre_request receive = balsaeuchre_request_of(BALSAEUCHRE_RECEIVE, 0, chid);
        balsaeuchre_ending got = call(SERVER, receive, NULL, 0, sizeof(int64_t));
        int64_t number;
        memcpy(&number, threads[SERVER].bytes, sizeof number);
        if (got.mark != BALSAEUCHRE_MESSAGE || got.written != sizeof number || number != round) {
            stop("received", number);
        }
        if (round == 0 && sender_of(got.rcvid) != CLIENT_NUMBER) stop("sender of", (long long)got.rcvid);
        balsaeuchre_request reply = balsaeuchre_request_of(BALSAEUCHRE_REPLY, 0, got.rcvid);
        reply.status = 2 * round;
        number = -number;
        if (call(SERVER, reply, &number, sizeof number, 0).mark != BALSAEUCHRE_DONE) stop("reply", round);
    }
    return unused;
}

/* Sends numbers, and checks the replies. */
static void *ask(void *unused) {
    uint64_t coid = call(CLIENT, balsaeuchre_request_of(BALSAEUCHRE_CONNECT_ATTACH, 0, chid), NULL, 0, 0).id;
    balsaeuchre_request send = balsaeuchre_request_of(BALSAEUCHRE_SEND, 0, coid);
    for (int64_t round = 0; round < rounds; round++) {
        balsaeuchre_ending got = call(CLIENT, send, &round, sizeof round, sizeof round);
        int64_t number;
        memcpy(&number, threads[CLIENT].bytes, sizeof number);
        if (got.mark != BALSAEUCHRE_REPLIED || got.status != 2 * round || number != -round) stop("replied", number);
    }
    return unused;
}

/* Prints the states of all threads. */
static void look(void) {
    balsaeuchre_look_row rows[THREADS];
    pthread_mutex_lock(&lock);
    size_t count = balsaeuchre_look(&desk, rows, THREADS);
    pthread_mutex_unlock(&lock);
    for (size_t row = 0; row < count; row++) {
        printf("thread %u of process %u, priority %u: %s\n", rows[row].thread, rows[row].process, rows[row].priority,
               state_names[rows[row].state]);
    }
}

/* Checks the errors of a blocked thread's port, and of all ports after a Shutdown. */
static void check_errors(void) {
    uint8_t bytes[8] = {0};
    balsaeuchre_answer answer;
    balsaeuchre_request receive = balsaeuchre_request_of(BALSAEUCHRE_RECEIVE, 0, chid);
    balsaeuchre_port *server = &threads[SERVER].port;
    balsaeuchre_port *client = &threads[CLIENT].port;
    for (int time = 0; time < 2; time++) {
        uint32_t error = balsaeuchre_port_call(&desk, server, &receive, bytes, 0, bytes + 1, 4, bytes + 5, 3, &answer);
        if (error != (time ? BALSAEUCHRE_BUSY : BALSAEUCHRE_OK)) stop("receive", error);
    }
    if (balsaeuchre_port_look(server)) stop("a completion of the server", 0);
    look();
    balsaeuchre_request down = balsaeuchre_request_of(BALSAEUCHRE_SHUTDOWN, 0, 0);
    for (int time = 0; time < 2; time++) {
        uint32_t error = balsaeuchre_port_call(&desk, client, &down, bytes, 0, bytes + 1, 0, bytes + 2, 0, &answer);
        if (error != (time ? BALSAEUCHRE_DOWN : BALSAEUCHRE_OK)) stop("shutdown", error);
    }
    if (!balsaeuchre_port_look(server)) stop("no completion of the server", 0);
    if (!balsaeuchre_port_poll(server, &answer.ending, bytes, sizeof bytes)) stop("no completion of the server", 1);
    if (answer.ending.mark != BALSAEUCHRE_FAILED || answer.ending.errno_ != BALSAEUCHRE_SRCH) {
        stop("mark of the receive", answer.ending.mark);
    }
    if (balsaeuchre_port_poll(server, &answer.ending, bytes, sizeof bytes)) stop("a second completion", 0);
}

/* Opens the desk and its ports. */
static void open_desk(void) {
    const balsaeuchre_thread roster[THREADS] = {{SERVER_NUMBER, 1, 10}, {CLIENT_NUMBER, 2, 20}};
    void *places[THREADS];
    if (balsaeuchre_open_ports(roster, THREADS, &desk.place, places, 1) != BALSAEUCHRE_INVAL) stop("one place", 0);
    if (balsaeuchre_open_ports(roster, THREADS, &desk.place, places, THREADS)) stop("open", 0);
    for (int self = 0; self < THREADS; self++) {
        threads[self].port.place = places[self];
        sem_init(&threads[self].woken, 0, 0);
    }
}

int main(int count, char **words) {
    int times = count == 3 && !strcmp(words[1], "--time");
    if (times) rounds = strtoll(words[2], NULL, 10);
    struct timespec start, end;
    open_desk();
    chid = call(SERVER, balsaeuchre_request_of(BALSAEUCHRE_CHANNEL_CREATE, 0, 0), NULL, 0, 0).id;
    pthread_t server, client;
    clock_gettime(CLOCK_MONOTONIC, &start);
    pthread_create(&server, NULL, serve, NULL);
    pthread_create(&client, NULL, ask, NULL);
    pthread_join(server, NULL);
    pthread_join(client, NULL);
    clock_gettime(CLOCK_MONOTONIC, &end);
    if (times) {
        double seconds = (double)(end.tv_sec - start.tv_sec) + (double)(end.tv_nsec - start.tv_nsec) / 1e9;
        printf("%.0f ns for a round\n", seconds * 1e9 / (double)rounds);
        return 0;
    }
    printf("%lld rounds: each reply is right\n", (long long)rounds);
    check_errors();
    balsaeuchre_close_desk(desk);
    for (int self = 0; self < THREADS; self++) balsaeuchre_close_port(threads[self].port);
    return 0;
}
