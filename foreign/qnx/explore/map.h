/* The memory that an explored program shares with balsaeuchre-explore. Both map it. Tested, not proved.
 *
 * In an explored run one thread runs at a time. A choice is a place at which more than one thread could run. The
 * plan has the first choices of a run, and the policy makes the others. The run writes each choice, so that it can be
 * made again. The memory outlives a crash of the program. */
#ifndef EXPLORE_MAP_H
#define EXPLORE_MAP_H

#include <stdatomic.h>
#include <stdint.h>

/* A choice is the index of a task, or CLOCK: time passes. A task is a thread of an explored run; the first is the main
 * thread, and the others follow in the order of their creation. SERVICE is the front's own thread. In a plan
 * DEFAULT_CHOICE means the choice that the policy CONTINUE makes. */
enum { TASKS = 63, SERVICE = TASKS - 1, CLOCK = TASKS, DEFAULT_CHOICE = 255 };
enum { CHOICES = 1 << 16, EVENTS = 1 << 16, ACCESSES = 6, STATES = 1 << 21, FRAMES = 16, TASK_NAME = 16 };

/* The files of an explored program: the run, the visited states, commands and answers. They have high numbers, so that
 * the program's own files have the numbers that they always have. */
enum { RUN_FILE = 200, STATES_FILE, COMMANDS_FILE, ANSWERS_FILE };
#define EXPLORE_VARIABLE "BALSAEUCHRE_EXPLORE" /* the version of this header, for a program that is explored */
#define EXPLORE_VERSION "1"

enum explore_policy { CONTINUE, RANDOM, PCT };

/* Why a run ended before the program did. */
enum explore_end {
    NOT_ENDED,
    DEADLOCK,
    ENDLESS,        /* more events or choices than fit */
    FAILED_CALL,    /* a call failed with ESRCH or EBADF */
    UNKNOWN_THREAD, /* a thread that the host's pthread_create created has made a call */
    VISITED,        /* a state that an earlier run has visited at no greater cost */
    FORKED,         /* the program forks */
    REMOTE,         /* the program uses a daemon's kernel */
    NO_ROOM         /* more locks than fit */
};

/* Operations before which a thread gives its turn. Numbers below DO_START are kinds of the kernel's calls. */
enum operation {
    DO_START = 64,
    DO_CREATE,
    DO_JOIN,
    DO_END,
    DO_LOCK,
    DO_TRY_LOCK,
    DO_UNLOCK,
    DO_READ_LOCK,
    DO_COND_WAIT, /* releases the mutex, and begins to wait */
    DO_COND_WAKE, /* ends the wait */
    DO_COND_SIGNAL,
    DO_SEM_WAIT,
    DO_SEM_POST,
    DO_SEM_READ,
    DO_BARRIER,
    DO_BARRIER_END,
    DO_ONCE,
    DO_SLEEP,
    DO_YIELD,
    DO_NAME,      /* name_attach, name_detach */
    DO_FIND_NAME, /* name_open */
    DO_SET_TIMER,
    DO_EXPIRE, /* the front's own thread sends the pulses of timers and handlers */
    DO_TIME_OUT,
    DO_TIME,   /* time passes */
    DO_TABLES, /* reads or changes the front's tables */
    DO_CANCEL,
    DO_KILL,
    DO_EXIT,
    OPERATIONS
};

struct explore_choice {
    uint64_t enabled; /* a bit for each task that could run, and the bit CLOCK if time could pass */
    uint64_t state;   /* equal for runs that so far differ only in the order of independent operations */
    uint8_t last, chosen, usual, zero;
    uint32_t events; /* the events before it */
};

/* An operation that a task has made. */
struct explore_event {
    uint8_t task, operation; /* the task CLOCK: time has passed */
    uint8_t other;           /* the task that created, woke or received: see explore_task; TASKS: none */
    uint8_t is_late;         /* its time had come */
    int32_t chid;
    uint32_t choice;             /* 1 more than the index of the choice that led to it; 0: there was no choice */
    uint64_t ended;              /* a bit for each task whose wait it ended */
    uint64_t accesses[ACCESSES]; /* an object shifted left by 1, with 1 in the last bit if it changes the object */
};

/* A task as it is now. */
struct explore_task {
    uint8_t life; /* 0: there is none. 1: it runs or waits. 2: it has ended */
    uint8_t operation;
    uint8_t is_enabled; /* at the end of the run */
    uint8_t state;      /* of its call: STATE_SEND, STATE_RECEIVE, STATE_REPLY, or 0 */
    uint8_t other;      /* the server, the holder of the lock, or the joined task for which it waits; TASKS: none */
    uint8_t zero[3];
    int32_t tid, chid;
    uint64_t address; /* of the lock or another object for which it waits, or 0 */
    char name[TASK_NAME];
};

struct explore_run {
    /* written by balsaeuchre-explore */
    uint32_t planned, policy, most_events;
    uint32_t early;      /* time may pass while a thread can run */
    uint32_t every_step; /* a thread whose call has ended may wait before its next operation */
    uint32_t tells_failures;
    uint32_t depth, length; /* of PCT: its depth, and the length that it expects */
    uint32_t cuts, cost;    /* cuts: the run ends at a visited state. cost: of the plan */
    uint64_t seed;
    uint8_t plan[CHOICES];
    /* written by the run */
    uint32_t end, choice_count, event_count, has_tsan;
    uint32_t awaited_count; /* of operations for which tasks waited at the end; they follow the events */
    uint64_t final;         /* the state at the end: one for each order of dependent operations */
    uint32_t running;       /* the task that has the turn */
    uint32_t has_times;     /* at a choice there was a time at which a timer, a timeout or a sleep ends */
    int32_t failed_error;
    int32_t crash_signal; /* or 0 */
    uint32_t frame_count;
    uint64_t frames[FRAMES]; /* of the thread that crashed */
    struct explore_task tasks[TASKS];
    struct explore_choice choices[CHOICES];
    struct explore_event events[EVENTS];
};

/* The visited states of all runs. The last four bits of a state are the least cost at which it was visited. */
struct explore_states {
    _Atomic uint32_t count;
    _Atomic uint64_t visited[STATES];
};

#endif
