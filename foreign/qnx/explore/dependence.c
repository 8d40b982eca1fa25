/* Which operations depend on one another. Tested, not proved.
 *
 * Two operations depend on one another if they use the same object and at least one of them changes it. Runs that
 * differ only in the order of independent operations count as one run. So a row that leaves an object out can hide a
 * bug, and a row with an object too many costs runs. Each row has its reason. The programs in
 * foreign/explore/tests/orders test the rows: three searches have to find the same orders. */

enum object_kind {
    NOTHING,
    EVERYTHING, /* each operation at least reads it */
    QUEUE,      /* of a channel: its items, and the threads that wait for one */
    ENDS,       /* of a channel: whether it exists, and which connections lead to it */
    HELD,       /* of a channel with _NTO_CHF_UNBLOCK: which of its messages are held */
    MESSAGE,    /* of a task: its sent message */
    ADDRESS,    /* a lock or another object of the host, by its address */
    THREAD,     /* of a task: its life */
    THREADS,    /* the list of tasks */
    TIMERS_SET, /* the times and expiries of all timers */
    NAME_TABLE
};

#define READS(kind) \
    { kind, false }
#define CHANGES(kind) \
    { kind, true }

/* The objects that an operation uses, beside EVERYTHING, which it reads. */
struct row {
    struct used {
        enum object_kind kind;
        bool changes;
    } uses[ACCESSES - 1];
};

static const struct row rows[OPERATIONS] = {
    /* It gives a number that no other object has. Numbers are names: a run with other numbers has the same results, by
     * the law of crates/qrules_renaming. The limit of 64 channels is left out. */
    [BALSAEUCHRE_CHANNEL_CREATE] = {{READS(NOTHING)}},
    /* As above. It fails if the channel doesn't exist. */
    [BALSAEUCHRE_CONNECT_ATTACH] = {{READS(ENDS)}},
    /* It puts an item into the queue, or completes the Receive that waits longest. It fails if the channel or the
     * connection is gone. */
    [BALSAEUCHRE_SEND] = {{CHANGES(QUEUE), READS(ENDS)}},
    [BALSAEUCHRE_PULSE] = {{CHANGES(QUEUE), READS(ENDS)}},
    /* It takes an item, or begins to wait. An unblock pulse has the rcvid of its message only while that is held. */
    [BALSAEUCHRE_RECEIVE] = {{CHANGES(QUEUE), READS(ENDS), CHANGES(HELD)}},
    [BALSAEUCHRE_RECEIVE_PULSE] = {{CHANGES(QUEUE), READS(ENDS), CHANGES(HELD)}},
    /* They end one message. They fail if a detach has ended it before. */
    [BALSAEUCHRE_REPLY] = {{CHANGES(MESSAGE), READS(ENDS), READS(HELD)}},
    [BALSAEUCHRE_ERROR] = {{CHANGES(MESSAGE), READS(ENDS), READS(HELD)}},
    /* They read one message, or the facts of its sender. */
    [BALSAEUCHRE_READ] = {{READS(MESSAGE), READS(ENDS)}},
    [BALSAEUCHRE_INFO] = {{READS(MESSAGE), READS(ENDS)}},
    /* It changes the sender's buffer. */
    [BALSAEUCHRE_WRITE] = {{CHANGES(MESSAGE), READS(ENDS)}},
    /* It cancels the sends over the connection, and may queue a disconnect pulse. */
    [BALSAEUCHRE_CONNECT_DETACH] = {{CHANGES(QUEUE), CHANGES(ENDS)}},
    /* Rare calls that use any thread or channel. */
    [BALSAEUCHRE_CHANNEL_DESTROY] = {{CHANGES(EVERYTHING)}},
    [BALSAEUCHRE_SHUTDOWN] = {{CHANGES(EVERYTHING)}},
    [BALSAEUCHRE_UNBLOCK] = {{CHANGES(EVERYTHING)}},
    [BALSAEUCHRE_PRIORITY_SET] = {{CHANGES(EVERYTHING)}},
    [BALSAEUCHRE_STATE] = {{CHANGES(EVERYTHING)}},
    /* A new thread depends on its creator, which is an event that ends its wait. */
    [DO_START] = {{READS(NOTHING)}},
    /* The creations give the tasks their indices. */
    [DO_CREATE] = {{CHANGES(THREADS)}},
    [DO_JOIN] = {{CHANGES(THREAD)}},
    [DO_END] = {{CHANGES(THREAD)}},
    /* A lock, a condition variable and so on: any two operations on one object. */
    [DO_LOCK] = {{CHANGES(ADDRESS)}},
    [DO_TRY_LOCK] = {{CHANGES(ADDRESS)}},
    [DO_UNLOCK] = {{CHANGES(ADDRESS)}},
    /* Two readers may hold a lock together. */
    [DO_READ_LOCK] = {{READS(ADDRESS)}},
    [DO_COND_WAIT] = {{CHANGES(ADDRESS)}},
    [DO_COND_WAKE] = {{CHANGES(ADDRESS)}},
    [DO_COND_SIGNAL] = {{CHANGES(ADDRESS)}},
    [DO_SEM_WAIT] = {{CHANGES(ADDRESS)}},
    [DO_SEM_POST] = {{CHANGES(ADDRESS)}},
    [DO_SEM_READ] = {{READS(ADDRESS)}},
    [DO_BARRIER] = {{CHANGES(ADDRESS)}},
    [DO_BARRIER_END] = {{READS(ADDRESS)}},
    [DO_ONCE] = {{CHANGES(ADDRESS)}},
    /* They concern only the thread. Time, which ends a sleep, has a row of its own. */
    [DO_SLEEP] = {{CHANGES(THREAD)}},
    [DO_YIELD] = {{CHANGES(THREAD)}},
    [DO_NAME] = {{CHANGES(NAME_TABLE)}},
    [DO_FIND_NAME] = {{READS(NAME_TABLE)}},
    /* A timer that is set again has not expired. */
    [DO_SET_TIMER] = {{CHANGES(TIMERS_SET)}},
    [DO_EXPIRE] = {{CHANGES(TIMERS_SET)}},
    /* A thread may read the clock, begin a timed wait, or end another thread's wait, after any operation. */
    [DO_TIME] = {{CHANGES(EVERYTHING)}},
    /* A Send or a Receive that times out: it leaves the queue, or ends or marks its message. */
    [DO_TIME_OUT] = {{CHANGES(QUEUE), READS(ENDS), CHANGES(HELD), CHANGES(MESSAGE)}},
    /* Rare operations that use any thread. */
    [DO_TABLES] = {{CHANGES(EVERYTHING)}},
    [DO_CANCEL] = {{CHANGES(EVERYTHING)}},
    [DO_KILL] = {{CHANGES(EVERYTHING)}},
    [DO_EXIT] = {{CHANGES(EVERYTHING)}},
};

/* The numbers of an operation's objects. */
struct about {
    int chid;
    unsigned task; /* whose message or life it uses */
    const void *address;
};

enum { FLAGGED = 64 };
static int unblocking[FLAGGED]; /* the channels with _NTO_CHF_UNBLOCK, by the last bits of their chids */

static void note_channel(int chid, unsigned flags) {
    if (exploring) unblocking[chid % FLAGGED] = flags & _NTO_CHF_UNBLOCK ? chid : 0;
}

/* Returns an object's number, or 0 if it isn't used. */
static uint64_t object_of(enum object_kind kind, const struct about *about) {
    uint64_t which = 0;
    switch (kind) {
    case NOTHING:
        return 0;
    case HELD:
        if (unblocking[about->chid % FLAGGED] != about->chid || !about->chid) return 0;
        which = (unsigned)about->chid;
        break;
    case QUEUE:
    case ENDS:
        which = (unsigned)about->chid;
        break;
    case MESSAGE:
    case THREAD:
        which = about->task;
        break;
    case ADDRESS:
        which = (uintptr_t)about->address & 0xffffffffffff;
        break;
    case EVERYTHING:
    case THREADS:
    case TIMERS_SET:
    case NAME_TABLE:
        break;
    }
    return (uint64_t)kind << 56 | which;
}

/* Fills in the accesses of an operation. Each operation reads EVERYTHING, so an operation that changes it depends on
 * all others. */
static void set_accesses(struct access accesses[ACCESSES], uint32_t operation, const struct about *about) {
    unsigned count = 1;
    memset(accesses, 0, ACCESSES * sizeof *accesses);
    accesses[0].object = object_of(EVERYTHING, about);
    for (unsigned at = 0; at < ACCESSES - 1; at++) {
        const struct used *use = &rows[operation].uses[at];
        uint64_t object = object_of(use->kind, about);
        if (use->kind == EVERYTHING) accesses[0].changes |= use->changes;
        else if (object) accesses[count++] = (struct access){object, use->changes};
    }
}

/* Adds an object to a task's accesses, if there is room. */
static void add_access(struct task *t, enum object_kind kind, const struct about *about, bool changes) {
    for (unsigned at = 0; at < ACCESSES; at++) {
        if (t->accesses[at].object) continue;
        t->accesses[at] = (struct access){object_of(kind, about), changes};
        return;
    }
}
