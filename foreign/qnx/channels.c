/* Channels and connections, and the pulses about the ends of connections and threads. Tested, not proved. */
enum { DEATHS = _NTO_CHF_THREAD_DEATH | _NTO_CHF_COID_DISCONNECT };
enum { IGNORED = _NTO_CHF_PRIVATE | _NTO_CHF_GLOBAL | _NTO_CHF_INHERIT_RUNMASK | _NTO_CHF_NOT_MERGEABLE };

/* A channel that gets pulses about ends, over a connection of the front's own process. */
struct told {
    int chid, coid; /* chid 0: none */
    unsigned flags;
};

/* A connection. Its place in the table is the coid's remainder, or the next place that was free. */
struct connection {
    _Atomic int coid; /* 0: none */
    int chid;
    unsigned flags;
    pid_t pid; /* of the channel's program */
};

static struct told told[CHANNELS];
static struct connection connections[ENTRIES];

static void forget_notes(int chid);
static int send_noted(int coid, int chid, int priority, int code, union sigval value);

/* A pulse about an end, and the channels that get it. */
struct death {
    int code, value, count;
    struct told told[CHANNELS];
};

static void send_deaths(void *argument) {
    const struct death *death = argument;
    union sigval value = {.sival_ptr = (void *)(intptr_t)death->value};
    for (int at = 0; at < death->count; at++)
        send_noted(death->told[at].coid, death->told[at].chid, SIGEV_PULSE_PRIO_INHERIT, death->code, value);
}

static void tell(unsigned flag, int code, int value) {
    struct death death = {.code = code, .value = value, .count = 0};
    hold();
    for (int at = 0; at < CHANNELS; at++) {
        if (told[at].chid && told[at].flags & flag) death.told[death.count++] = told[at];
    }
    release();
    if (death.count) as_system(send_deaths, &death);
}

/* Whether channels are told of the ends of threads. */
static bool tells_of_threads(void) {
    for (int at = 0; at < CHANNELS; at++) {
        if (told[at].chid && told[at].flags & _NTO_CHF_THREAD_DEATH) return true;
    }
    return false;
}

static void tell_death(int tid) {
    if (neutrino_remote()) neutrino_remote_death(tid);
    else tell(_NTO_CHF_THREAD_DEATH, _PULSE_CODE_THREADDEATH, tid);
}

/* Returns the coid of the first connection to a channel, from the entry *at on, and sets *at to the entry
 * after it. Returns 0 if there is none. */
static int next_connection(int chid, int *at) {
    int coid = 0;
    hold();
    for (; !coid && *at < ENTRIES; ++*at) {
        if (connections[*at].coid && connections[*at].chid == chid) coid = connections[*at].coid;
    }
    release();
    return coid;
}

/* Sends a pulse about each connection to a channel that was destroyed. It makes no list of them, since stacks
 * may be short. */
static void tell_disconnects(int chid) {
    int at = 0;
    for (int coid; (coid = next_connection(chid, &at));) tell(_NTO_CHF_COID_DISCONNECT, _PULSE_CODE_COIDDEATH, coid);
}

static void attach_told(void *t) {
    ((struct told *)t)->coid = layer_ConnectAttach(ND_LOCAL_NODE, PROGRAM, ((struct told *)t)->chid, 0, 0);
}

static void detach_told(void *t) { layer_ConnectDetach(((struct told *)t)->coid); }

/* Enters a channel in the table. Returns whether there was a place. */
static bool enter_told(const struct told *new) {
    int at = 0;
    hold();
    while (at < CHANNELS && told[at].chid) at++;
    if (at < CHANNELS) told[at] = *new;
    release();
    return at < CHANNELS;
}

/* Has a new channel get pulses about ends. If that fails, it destroys the channel. */
static int add_told(int chid, unsigned flags) {
    struct told new = {.chid = chid, .coid = -1, .flags = flags};
    step_if_explored(DO_TABLES);
    as_system(attach_told, &new);
    if (new.coid != -1 && enter_told(&new)) return chid;
    if (new.coid != -1) as_system(detach_told, &new);
    layer_ChannelDestroy(chid);
    return fail(EAGAIN);
}

int ChannelCreate(unsigned flags) {
    if (enter()) return -1;
    unsigned layers = _NTO_CHF_FIXED_PRIORITY | _NTO_CHF_UNBLOCK | _NTO_CHF_DISCONNECT;
    if (flags & ~(layers | DEATHS | IGNORED)) return fail(EINVAL);
    if (neutrino_remote()) return neutrino_remote_channel(flags & (layers | DEATHS));
    int chid = layer_ChannelCreate(flags & layers);
    note_channel(chid, flags);
    return chid == -1 || !(flags & DEATHS) ? chid : add_told(chid, flags);
}

/* Removes a channel from the table. Returns its entry, or an entry with the chid 0 if it had none. The caller
 * has the lock. */
static struct told take_told(int chid) {
    struct told gone = {.chid = 0};
    for (int at = 0; at < CHANNELS; at++) {
        if (told[at].chid != chid) continue;
        gone = told[at];
        told[at].chid = 0;
    }
    return gone;
}

/* The channel leaves the kernel and the table under one lock, so the table never has more channels than the
 * kernel. */
int ChannelDestroy(int chid) {
    struct told gone = {.chid = 0};
    if (enter()) return -1;
    hold();
    int result = layer_ChannelDestroy(chid);
    if (!result) {
        gone = take_told(chid);
        forget_notes(chid);
    }
    release();
    if (result) return -1;
    if (gone.chid) as_system(detach_told, &gone);
    tell_disconnects(chid);
    return 0;
}

/* Returns the entry of a connection, or null. The caller has the lock, or is is_connection. */
static struct connection *connection_of(int coid) {
    unsigned first = (unsigned)plain(coid) % CONNECTIONS;
    for (unsigned looked = 0; coid != -1 && looked < ENTRIES; looked++) {
        struct connection *c = &connections[(first + looked) % ENTRIES];
        if (c->coid && plain(c->coid) == plain(coid)) return c;
    }
    return NULL;
}

/* Returns whether there is such a connection. Takes no lock, so that signal handlers can call it. */
static bool is_connection(int coid) { return connection_of(coid); }

/* Returns a copy of a connection. Its coid is 0 if there is no such connection. */
static struct connection connection_as_is(int coid) {
    hold();
    const struct connection *c = connection_of(coid);
    struct connection found = c ? *c : (struct connection){0};
    release();
    return found;
}

int ConnectAttach(uint32_t nd, pid_t pid, int chid, unsigned index, int flags) {
    if (enter()) return -1;
    bool is_remote = neutrino_remote();
    if (!pid) pid = program;
    if (nd != ND_LOCAL_NODE || (pid != program && !is_remote)) return fail(ESRCH);
    int coid = is_remote ? neutrino_remote_attach(pid, chid, (int)index & SIDE)
                         : layer_ConnectAttach(ND_LOCAL_NODE, PROGRAM, chid, 0, 0);
    if (coid == -1) return -1;
    coid |= (int)index & SIDE;
    unsigned at = (unsigned)plain(coid) % CONNECTIONS;
    hold();
    while (connections[at].coid) at = (at + 1) % ENTRIES;
    connections[at].chid = chid;
    connections[at].flags = (unsigned)flags;
    connections[at].pid = pid;
    atomic_store(&connections[at].coid, coid);
    release();
    return coid;
}

int ConnectDetach(int coid) {
    if (enter()) return -1;
    if (is_scoid(coid)) return 0; /* it ends when the client's connection is detached */
    if (layer_ConnectDetach(plain(coid))) return -1;
    hold();
    struct connection *c = connection_of(coid);
    if (c) c->coid = 0;
    release();
    return 0;
}

int ConnectFlags(pid_t pid, int coid, unsigned mask, unsigned bits) {
    if (enter()) return -1;
    step_if_explored(DO_TABLES);
    if (pid && pid != program) return fail(ESRCH);
    hold();
    struct connection *c = connection_of(coid);
    unsigned old = c ? c->flags : 0;
    if (c) c->flags = (old & ~mask) | (bits & mask);
    release();
    return c ? (int)old : fail(EBADF);
}

/* Each channel has the places of the kernel, which are enough for a pool that the kernel can have. */
int ChannelCreatePulsePool(unsigned flags, const struct nto_channel_config *config) {
    bool fits = config && config->num_pulses && config->num_pulses <= 1024;
    return fits ? ChannelCreate(flags) : fail(EINVAL);
}
