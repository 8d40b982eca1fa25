/* Calls of the clocks and of the daemon's own thread, and the notes of pulses. Tested, not proved.
 *
 * A note has the content of a pulse that the kernel doesn't know. Each pulse that a program sends has
 * the code NOTED in the kernel, and the number of a note as its value. The kernel's own pulses, for
 * disconnects and unblocks, also have notes. When such a pulse is received, the place of its program
 * may belong to another program. The daemon finds its note by the numbers in the kernel's completion.
 * There are as many notes as pulses may wait, 1,024 on each of 64 channels, and one more for each seat,
 * whose pulse may be refused.
 */
enum { NOTED = 127, NOTES = WAITING * CHANNEL_PLACES + PLACES, TAKEN = -2 };

struct note {
    int next; /* the next free note, or -1; TAKEN: this note is in use */
    int chid;
    int32_t scoid;
    int8_t code;
    int64_t value;
    /* Of a pulse that the kernel made: the number of the call that made a disconnect pulse, or the id of
     * an unblock pulse's message. */
    uint64_t id;
    int later; /* of such a pulse: the channel's next note of this kind, or -1 */
};

static struct note notes[NOTES];
static int free_note = -1;
static int pulses[CHANNEL_PLACES];       /* by a channel's place: its notes, as many as pulses wait there */
static int listed[CHANNEL_PLACES];       /* the channel's first note of a pulse that the kernel made, or -1 */
static uint8_t flags_of[CHANNEL_PLACES]; /* the channel's flags in the kernel */

static int chid_at(int place) { return (int)(k->channels[place].turn << CHANNEL_BITS) | place; }

static int *pulses_of(int chid) { return &pulses[place_in(&k->tables[CHANNELS], chid)]; }

static void open_notes(void) {
    for (int place = 0; place < CHANNEL_PLACES; place++) listed[place] = -1;
    for (int at = NOTES - 1; at >= 0; at--) {
        notes[at].next = free_note;
        free_note = at;
    }
}

/* Returns the number of a new note, or -1. */
static int new_note(int chid, int scoid, int code, int64_t value) {
    int at = free_note;
    if (at == -1) return -1;
    free_note = notes[at].next;
    notes[at] = (struct note){TAKEN, chid, scoid, (int8_t)code, value, 0, -1};
    ++*pulses_of(chid);
    return at;
}

static void end_note(int at) {
    if (at < 0 || notes[at].next != TAKEN) return;
    notes[at].next = free_note;
    free_note = at;
    --*pulses_of(notes[at].chid);
}

static void end_notes(int chid) {
    for (int at = 0; at < NOTES && *pulses_of(chid); at++) {
        if (notes[at].chid == chid) end_note(at);
    }
    listed[place_in(&k->tables[CHANNELS], chid)] = -1;
}

/* Notes a pulse that the kernel makes. */
static void note_kernel_pulse(int chid, int scoid, int code, int64_t value, uint64_t id) {
    int at = new_note(chid, scoid, code, value), *first = &listed[place_in(&k->tables[CHANNELS], chid)];
    if (at == -1) return;
    notes[at].id = id;
    notes[at].later = *first;
    *first = at;
}

/* Ends the note of a pulse that the kernel made. Returns its content, whose scoid is 0
 * if there is no such note. */
static struct note take_kernel_pulse(int chid, int code, uint64_t id) {
    int *link = &listed[place_in(&k->tables[CHANNELS], chid)];
    while (*link != -1 && (notes[*link].code != code || notes[*link].id != id)) link = &notes[*link].later;
    int at = *link;
    if (at == -1) return (struct note){.scoid = 0};
    struct note found = notes[at];
    *link = found.later;
    end_note(at);
    return found;
}

/* Whether one more pulse may wait on a channel. On a channel with the flag DISCONNECT, one place is kept for
 * the disconnect pulse of each process. */
static bool has_room(int chid) {
    int place = place_in(&k->tables[CHANNELS], chid);
    int kept = flags_of[place] & BALSAEUCHRE_TELL_DISCONNECT ? limits.processes : 0;
    return pulses[place] < WAITING - kept;
}

/* A bit for each process that is connected to a channel. The connection but, which may be null, is left
 * out. */
static uint32_t connected_to(int chid, const struct name *but) {
    uint32_t found = 0;
    for (int at = 0; at < CONNECTION_PLACES; at++) {
        const struct name *name = &k->connections[at];
        if (name->id && name->peer == chid && name != but) found |= 1u << name->owner;
    }
    return found;
}

/* Whether a process may connect to a channel: its disconnect pulse has to have a place there, too. */
static bool may_attach(int process, int chid) {
    int place = place_in(&k->tables[CHANNELS], chid);
    if (!(flags_of[place] & BALSAEUCHRE_TELL_DISCONNECT) || pulses[place] < WAITING - PROCESSES) return true;
    uint32_t connected = connected_to(chid, NULL);
    return connected >> process & 1 || pulses[place] + __builtin_popcount(connected) < WAITING;
}

/* This call of the kernel has detached a connection. If it was the last one of its process to a channel with
 * the flag DISCONNECT, the kernel has made a pulse, which gets a note. */
static void note_detach(const struct name *name, uint64_t call) {
    int place = place_in(&k->tables[CHANNELS], name->peer);
    bool is_open = k->channels[place].id && chid_at(place) == name->peer;
    if (!is_open || !(flags_of[place] & BALSAEUCHRE_TELL_DISCONNECT)) return;
    if (connected_to(name->peer, name) >> name->owner & 1) return;
    note_kernel_pulse(name->peer, processes[name->owner].scoid, _PULSE_CODE_DISCONNECT, 0, call);
}

/* The layer's hook for a received pulse: fills in the content from its note, which ends. */
static void complete_pulse(struct _pulse *pulse) {
    int at = pulse->value.sival_int;
    pulse->code = notes[at].code;
    pulse->scoid = notes[at].scoid;
    pulse->value.sival_ptr = (void *)(intptr_t)notes[at].value;
    end_note(at);
}

/* Makes a call by a clock or by the daemon's own thread. Returns 0 or its errno. */
static int make_hidden(balsaeuchre_request request) {
    struct call c = {.request = request};
    uint32_t error = make_in_library(k, &c, 0, &k->event);
    if (error) return host_error(error);
    for (size_t at = 0; at < k->event.done.endings; at++) {
        const balsaeuchre_ending *row = &k->event.rows[at];
        if (row->thread == request.thread && row->mark == BALSAEUCHRE_FAILED) error = row->errno_;
    }
    int coid = !error && request.kind == BALSAEUCHRE_CONNECT_DETACH ? number_of(k, CONNECTIONS, request.id) : 0;
    if (coid) note_detach(&k->connections[place_in(&k->tables[CONNECTIONS], coid)], k->event.done.call);
    tell(k, deliver_all(k));
    return host_error(error);
}

/* Sends a pulse by a clock or by the daemon's own thread. Returns 0 or an errno. */
static int send_pulse(balsaeuchre_request request, const struct note *content) {
    int note = new_note(content->chid, content->scoid, content->code, content->value);
    if (note == -1) return EAGAIN;
    request.kind = BALSAEUCHRE_PULSE;
    request.pulse_code = NOTED;
    request.value = note;
    int error = make_hidden(request);
    if (error) end_note(note);
    return error;
}

/* ---- pulses about ended threads and lost connections: the daemon's own process is connected to each
 * channel that asks for them */
/* As in sys/neutrino.h of foreign/qnx. */
enum { THREAD_DEATH = 0x100, COID_DISCONNECT = 0x200, DEATHS = THREAD_DEATH | COID_DISCONNECT };
enum { CODE_THREADDEATH = -3, CODE_COIDDEATH = -4 };

/* By the channel's place. flags 0: the channel doesn't ask for these pulses. */
static struct {
    uint64_t connection;
    unsigned flags;
} told[CHANNEL_PLACES];

/* Prepares a new channel for the pulses about ends that its flags ask for. Returns 0 or an errno. */
static int tell_of_ends(int chid, unsigned flags) {
    int place = place_in(&k->tables[CHANNELS], chid);
    uint64_t channel = k->channels[place].id;
    int error = make_hidden(balsaeuchre_request_of(BALSAEUCHRE_CONNECT_ATTACH, SYSTEM, channel));
    if (error || k->event.rows[0].mark != BALSAEUCHRE_CONNECTION) return error ? error : EAGAIN;
    told[place].connection = k->event.rows[0].id;
    told[place].flags = flags;
    return 0;
}

/* Sends a pulse to each channel of a process that has this flag. The pulse is lost if the remaining room is
 * needed for the disconnect pulses of connected processes. */
static void tell_process(int process, unsigned flag, int code, int value) {
    for (int place = 0; place < CHANNEL_PLACES; place++) {
        const struct name *channel = &k->channels[place];
        if (!channel->id || channel->owner != process || !(told[place].flags & flag)) continue;
        bool owes = flags_of[place] & BALSAEUCHRE_TELL_DISCONNECT;
        uint32_t connected = owes ? connected_to(chid_at(place), NULL) : 0;
        if (pulses[place] + __builtin_popcount(connected) >= WAITING) continue;
        balsaeuchre_request request = balsaeuchre_request_of(BALSAEUCHRE_PULSE, SYSTEM, told[place].connection);
        request.priority = USUAL;
        struct note content = {.chid = chid_at(place), .scoid = processes[process].scoid, .code = (int8_t)code};
        content.value = value;
        send_pulse(request, &content);
    }
}

static bool is_side[CONNECTION_PLACES]; /* the program's coid has the bit of a side channel */

static int coid_at(int place) {
    int coid = (int)(k->connections[place].turn << CONNECTION_BITS) | place;
    return is_side[place] ? coid | SIDE : coid;
}

static char names[CHANNEL_PLACES][WIRE_NAME]; /* by the channel's place; empty: none */

/* A channel was destroyed: removes its name and its notes, and sends COIDDEATH pulses to connected
 * processes that ask for them. */
static void end_channel(int chid) {
    int place = place_in(&k->tables[CHANNELS], chid);
    *names[place] = 0;
    end_notes(chid);
    flags_of[place] = 0;
    balsaeuchre_request detach = balsaeuchre_request_of(BALSAEUCHRE_CONNECT_DETACH, SYSTEM, told[place].connection);
    if (told[place].flags) make_hidden(detach);
    told[place].flags = 0;
    for (int at = 0; at < CONNECTION_PLACES; at++) {
        const struct name *name = &k->connections[at];
        if (name->id && name->peer == chid) tell_process(name->owner, COID_DISCONNECT, CODE_COIDDEATH, coid_at(at));
    }
}
