/* Turns of programs with long requests. Tested, not proved.
 *
 * The daemon takes one request after another, so a long request delays all programs while its bytes are
 * copied. A program pays for the time of its long requests. While other programs also make requests, it gets
 * one part in SHARE of the daemon's time, and up to BURST at once. Its further requests wait in its boxes.
 * Two kinds of programs don't count as others here. The first kind is connected to the program, or the
 * program to it, so both may wait for each other. The second kind waits for its own turn. If no other program
 * makes requests, no program waits. */
enum { SHARE = 20, BURST = 1000000, ACTIVE = 10000000 }; /* BURST, ACTIVE: nanoseconds */
/* Nanoseconds until requests that wait are looked at again. */
enum { SOON = 500000 };

static uint64_t turn;  /* the time at which the boxes are looked at */
static bool has_later; /* a request waits for its program's turn */

static bool is_over_share(const struct process *of) { return of->due > turn + SHARE * (uint64_t)BURST; }

/* A bit for each process that is connected to this process, or to which this process is connected. */
static uint32_t partners_of(int process) {
    uint32_t found = 0;
    for (int at = 0; at < CONNECTION_PLACES; at++) {
        const struct name *name = &k->connections[at];
        if (!name->id) continue;
        int server = k->channels[place_in(&k->tables[CHANNELS], name->peer)].owner;
        if (name->owner == process) found |= 1u << server;
        if (server == process) found |= 1u << name->owner;
    }
    return found;
}

/* Whether another program has made a request within ACTIVE, and doesn't wait for its own turn. */
static bool others_ask(int process) {
    uint32_t partners = processes[process].partners | 1u << process;
    for (int at = 1; at <= limits.processes; at++) {
        const struct process *other = &processes[at];
        if (!(partners >> at & 1) && other->asked_at + ACTIVE > turn && !is_over_share(other)) return true;
    }
    return false;
}

/* Whether the next request of a program is taken now. */
static bool has_turn(int process) {
    bool waits = is_over_share(&processes[process]) && others_ask(process);
    has_later |= waits;
    return !waits;
}

/* Lets a program pay for a long request that was taken at the time since. */
static void pay_for_ask(int process, uint64_t since) {
    struct process *of = &processes[process];
    if (of->due < since) of->due = since;
    of->due += SHARE * (now() - since);
    of->partners = partners_of(process);
}
