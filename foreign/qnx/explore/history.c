/* The events of an explored run, and the hash of its state. Tested, not proved.
 *
 * The state of a run is a sum over its events. The number of an event comes from the events on which it depends: the
 * last event of its task, and the last events that used its objects. So the order of independent events makes no
 * difference to the sum, and the numbers of objects don't occur in it. */
enum { OBJECTS = 1 << 12 };

static struct object {
    uint64_t number, changed, read; /* hashes of the last change, and of the reads since then */
} objects[OBJECTS];

static uint64_t total;         /* the sum */
static uint32_t choice_before; /* 1 more than the index of the choice that led to the next event, or 0 */

static uint64_t mix_in(uint64_t hash, uint64_t value) {
    hash = (hash ^ (value + 0x9e3779b97f4a7c15u + (hash << 6) + (hash >> 2))) * 0xff51afd7ed558ccdu;
    return hash ^ hash >> 32;
}

static struct object *object_at(uint64_t number) {
    unsigned at = (unsigned)(mix_in(number, 1) % OBJECTS);
    for (unsigned looked = 0; looked < OBJECTS && objects[at].number && objects[at].number != number; looked++)
        at = (at + 1) % OBJECTS;
    objects[at].number = number;
    return &objects[at];
}

/* Marks that the last event has ended the wait of a task, which now depends on it. */
static void note_ended(const struct task *t) {
    if (run->event_count) run->events[(run->event_count - 1) % EVENTS].ended |= 1ull << index_of(t);
}

/* Appends an event. A clock is not one of the tasks. */
static void append_event(const struct task *t, uint32_t operation, const struct access *accesses) {
    bool is_task = t >= tasks && t < tasks + TASKS;
    struct explore_event *e = &run->events[run->event_count % EVENTS];
    *e = (struct explore_event){.task = is_task ? (uint8_t)index_of(t) : CLOCK,
                                .operation = (uint8_t)operation,
                                .other = is_task && t->shown ? t->shown->other : TASKS,
                                .is_late = t->is_late,
                                .chid = is_task && t->shown ? t->shown->chid : 0,
                                .choice = choice_before};
    for (int at = 0; at < ACCESSES; at++) e->accesses[at] = accesses[at].object << 1 | accesses[at].changes;
    choice_before = 0;
    run->event_count++;
}

/* Makes an event: adds it to the state and to the events. */
static void note_event(struct task *t, uint32_t operation, const struct access *accesses) {
    uint64_t past = mix_in(t->past, operation);
    for (int at = 0; at < ACCESSES && accesses[at].object; at++) {
        const struct object *o = object_at(accesses[at].object);
        past = mix_in(past, o->changed);
        if (accesses[at].changes) past = mix_in(past, o->read);
    }
    for (int at = 0; at < ACCESSES && accesses[at].object; at++) {
        struct object *o = object_at(accesses[at].object);
        if (accesses[at].changes) {
            o->changed = past;
            o->read = 0;
        } else {
            o->read += past;
        }
    }
    t->past = past;
    t->made++;
    total += past;
    append_event(t, operation, accesses);
}

/* Returns the state, with the operation that each task is about to make. */
static uint64_t state_now(void) {
    uint64_t all = total;
    for (int at = 0; at < TASKS; at++) {
        const struct task *t = &tasks[at];
        if (life_of(t) == PRESENT) all += mix_in(mix_in(t->past, t->shown->operation), t->is_late);
    }
    return mix_in(all, index_of(last));
}

/* Returns whether a run has visited a state at no greater cost, and notes that this run has. The runs of several
 * processes use the table at once. */
static bool was_visited(uint64_t state) {
    enum { COST = 15, PROBES = 64 };
    uint64_t key = (state & ~(uint64_t)COST) | 0x10, own = key | (run->cost < COST ? run->cost : COST);
    for (unsigned probe = 0, at = (unsigned)(mix_in(state, 7) % STATES); probe < PROBES; probe++) {
        uint64_t found = atomic_load(&states->visited[at]);
        if (!found && atomic_compare_exchange_strong(&states->visited[at], &found, own)) {
            states->count++;
            return false;
        }
        if ((found & ~(uint64_t)COST) != key) {
            at = (at + 1) % STATES;
            continue;
        }
        if ((found & COST) <= (own & COST)) return true;
        atomic_store(&states->visited[at], own);
        return false;
    }
    return false;
}
