/* Vector clocks over the events of a run: which events came before which, and which could have come in the other
 * order. Tested, not proved. */
enum { OWNERS = TASKS + 1 }; /* of events: the tasks, and time */

typedef uint32_t vector_clock[OWNERS];

/* An access of an event, in the list of the accesses to its object. */
struct use {
    uint32_t event, before; /* before: 1 more than the index of the access before it; 0: none */
    uint64_t object;
    bool changes;
};

struct slot {
    uint64_t object;
    uint32_t last; /* 1 more than the index of the last access; 0: the slot is free */
};

/* The order of the events of one run. */
static struct {
    vector_clock *clocks; /* after each event */
    uint32_t *numbers;    /* of each event, among the events of its task */
    struct use *uses;
    struct slot *slots;
    uint32_t room, use_count, slot_room;
    vector_clock now[OWNERS]; /* of each task */
    uint32_t counts[OWNERS];
} order;

static void begin_order(uint32_t events) {
    if (events > order.room) {
        order.room = 2 * events;
        order.slot_room = 16 * order.room;
        order.clocks = realloc(order.clocks, order.room * sizeof *order.clocks);
        order.numbers = realloc(order.numbers, order.room * sizeof *order.numbers);
        order.uses = realloc(order.uses, order.room * ACCESSES * sizeof *order.uses);
        order.slots = realloc(order.slots, order.slot_room * sizeof *order.slots);
        if (!order.clocks || !order.numbers || !order.uses || !order.slots) give_up("there is no memory");
    }
    if (order.slots) memset(order.slots, 0, order.slot_room * sizeof *order.slots);
    memset(order.now, 0, sizeof order.now);
    memset(order.counts, 0, sizeof order.counts);
    order.use_count = 0;
}

static struct slot *slot_of(uint64_t object) {
    uint32_t at = (uint32_t)((object * 0x9e3779b97f4a7c15u) >> 32) % order.slot_room;
    while (order.slots[at].last && order.slots[at].object != object) at = (at + 1) % order.slot_room;
    order.slots[at].object = object;
    return &order.slots[at];
}

static void join_clocks(vector_clock into, const vector_clock from) {
    for (int at = 0; at < OWNERS; at++) {
        if (from[at] > into[at]) into[at] = from[at];
    }
}

/* Puts an event after the events on which it depends: the last change of each of its objects, and the reads since then
 * if it changes the object. */
static void order_after_uses(uint32_t index, const struct explore_event *e) {
    for (int at = 0; at < ACCESSES && e->accesses[at]; at++) {
        uint64_t object = e->accesses[at] >> 1;
        bool changes = e->accesses[at] & 1;
        struct slot *slot = slot_of(object);
        for (uint32_t use = slot->last; use; use = order.uses[use - 1].before) {
            const struct use *u = &order.uses[use - 1];
            if (changes || u->changes) join_clocks(order.now[e->task], order.clocks[u->event]);
            if (u->changes) break;
        }
        order.uses[order.use_count] = (struct use){index, slot->last, object, changes};
        slot->last = ++order.use_count;
    }
}

/* Adds an event. Those whose waits it ended come after it. */
static void add_to_order(uint32_t index, const struct explore_event *e) {
    order_after_uses(index, e);
    order.numbers[index] = order.now[e->task][e->task] = ++order.counts[e->task];
    memcpy(order.clocks[index], order.now[e->task], sizeof(vector_clock));
    for (uint64_t ended = e->ended; ended; ended &= ended - 1)
        join_clocks(order.now[__builtin_ctzll(ended)], order.clocks[index]);
}

/* Whether the first event doesn't come before the next event of a task. */
static bool is_concurrent(uint32_t event, const struct explore_event *first, unsigned task) {
    return first->task != task && order.now[task][first->task] < order.numbers[event];
}

/* Whether two operations depend on one another. */
static bool depends(const struct explore_event *a, const struct explore_event *b) {
    for (int i = 0; i < ACCESSES && a->accesses[i]; i++) {
        for (int j = 0; j < ACCESSES && b->accesses[j]; j++) {
            bool is_same = a->accesses[i] >> 1 == b->accesses[j] >> 1;
            if (is_same && ((a->accesses[i] | b->accesses[j]) & 1)) return true;
        }
    }
    return false;
}
