/* Declarations that the parts of balsaeuchre-explore share. Tested, not proved. */
#ifndef EXPLORE_H
#define EXPLORE_H

#include "../qnx/explore/map.h"

#include <errno.h>
#include <stdbool.h>
#include <stdio.h>
#include <stdlib.h>
#include <string.h>
#include <unistd.h>

enum { OK = 0, FOUND = 1, USAGE = 2, UNUSABLE = 3 }; /* exit statuses */
enum { JOBS = 64, KINDS = 32 };                      /* the most programs at a time, and kinds of failures */

enum strategy_kind { MIXED, ONLY_RANDOM, ONLY_PCT, ONLY_RACES };

struct options {
    enum strategy_kind strategy;
    long delays, depth, runs, calls, jobs; /* runs 0: any number */
    long random_runs;                      /* of each phase, before the runs with delays */
    double seconds;
    uint64_t seed;
    bool no_early, all, errors, json, no_reduction, every_step, no_shorten;
    const char *expect, *kept, *replay, *record; /* names of files, or null */
    char **words;                                /* the program and its arguments */
};

/* How a run failed. */
enum failure {
    PASSED,
    FAILED_DEADLOCK,
    FAILED_CRASH,  /* the detail is the signal */
    FAILED_STATUS, /* the exit status */
    FAILED_RACE,   /* ThreadSanitizer reported a data race */
    FAILED_ERROR,  /* a call failed: the errno */
    FAILED_OUTPUT,
    FAILED_ENDLESS,
    FAILED_SPINS, /* a thread computes and makes no call */
    FAILED_STOPS, /* no thread makes a call: it waits in the host */
    FAILED_THREAD,
    FAILED_FORK,
    FAILED_DAEMON,
    FAILED_ROOM,
    FAILED_DIFFERS /* the same choices led to another run */
};

struct outcome {
    enum failure failure;
    int detail;
};

/* What a run gets. */
struct request {
    const uint8_t *plan; /* followed by next, if that isn't DEFAULT_CHOICE */
    uint32_t length;
    uint8_t next;
    uint32_t policy, depth, expected_length, cost;
    uint64_t seed;
    bool cuts, early;
};

/* An explored program: its server, and the memory that it shares. */
struct program {
    pid_t server, child; /* child 0: no run is under way */
    int commands, answers, output, errors;
    bool shows;      /* its output isn't caught */
    bool symbolizes; /* ThreadSanitizer finds the names of functions */
    struct explore_run *run;
    struct request request; /* of the present run */
    uint32_t planned;
    struct outcome outcome; /* of the last run */
    uint32_t seen_events;   /* when the run was last seen to make progress, */
    double seen_cpu;        /* and the processor time then */
    double looked_at, idle; /* the last look; the seconds since then in which no thread was busy */
    bool was_killed, spins;
    void *origin; /* what the search keeps for the run */
};

/* A failure that was found. */
struct finding {
    struct outcome outcome;
    long number; /* of the run */
    bool early;
    uint8_t *choices;
    uint64_t *states;
    uint32_t length, delays, early_times;
    char *text; /* how it is told */
};

/* A set of numbers other than 0. */
struct set {
    uint64_t *members;
    size_t count, room;
};

/* A search over all phases. */
struct search {
    const struct options *options;
    struct program *programs; /* of the option's number */
    double begun;             /* in seconds */
    long started, runs;       /* runs that have started, and those that have ended */
    bool early;               /* the second phase, in which time may go on while a thread can run */
    bool has_times;           /* a run had a time that could have come early, so there is a second phase */
    bool is_whole;
    bool has_cut; /* a run was ended before its end, so not all orders were made */
    uint32_t longest;
    struct finding findings[KINDS];
    int finding_count;
    const struct outcome *wanted; /* the only outcome that ends the search, or null */
    struct set orders, outputs;   /* of whole runs: the final states, and hashes of what they print */
    char *expected;               /* the output of a run that passes, or null */
    size_t expected_length;
    const char *name; /* of the present part */
};

#endif
