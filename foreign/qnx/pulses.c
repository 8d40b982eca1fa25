/* Pulses. The kernel's pulses have codes from 0 to 127, and values of 32 bits. Tested, not proved.
 *
 * A pulse with another code or a longer value is sent with the code NOTED, and with a value that names a
 * note. So is a pulse whose code is NOTED. The note has the pulse's code and value, and the hook puts them
 * into the pulse when it is received. The notes of a destroyed channel are freed.
 */
enum { NOTES = 4096, NOTED = 127, TURNS = INT32_MAX / NOTES };

struct note {
    _Atomic int turn; /* 0: it is free */
    int chid;
    int8_t code;
    union sigval value;
};

static struct note notes[NOTES];
static int note_turns;

/* Returns the value that names a new note, or -1 if none is free. */
static int new_note(int chid, int code, union sigval value) {
    static int next;
    int named = -1;
    hold();
    for (int looked = 0; named == -1 && looked < NOTES; looked++) {
        int at = (next + looked) % NOTES;
        if (atomic_load(&notes[at].turn)) continue;
        next = at + 1;
        note_turns = note_turns == TURNS - 1 ? 1 : note_turns + 1;
        notes[at].chid = chid;
        notes[at].code = (int8_t)code;
        notes[at].value = value;
        atomic_store(&notes[at].turn, note_turns);
        named = note_turns * NOTES + at;
    }
    release();
    return named;
}

static void forget_note(int named) {
    int turn = named / NOTES;
    atomic_compare_exchange_strong(&notes[named % NOTES].turn, &turn, 0);
}

/* Frees the notes of a channel. The caller has the lock. */
static void forget_notes(int chid) {
    for (int at = 0; at < NOTES; at++) {
        if (notes[at].chid == chid) atomic_store(&notes[at].turn, 0);
    }
}

/* The hook for a program's pulse that is received. Fills in the scoid, and the code and value of a note. */
static void complete_pulse(struct _pulse *pulse) {
    int named = pulse->value.sival_int;
    pulse->scoid = SIDE | PROGRAM;
    if (pulse->code != NOTED) {
        pulse->value.sival_ptr = (void *)(intptr_t)named;
        return;
    }
    pulse->code = notes[named % NOTES].code;
    pulse->value = notes[named % NOTES].value;
    forget_note(named);
}

static int send_noted(int coid, int chid, int priority, int code, union sigval value) {
    int named = new_note(chid, code, value);
    if (named == -1) return fail(EAGAIN);
    if (!layer_MsgSendPulse(coid, priority, NOTED, named)) return 0;
    forget_note(named);
    return -1;
}

/* Returns an errno for an invalid priority or code of a pulse, or 0. */
static int wrong_pulse(int priority, int code) {
    bool known = priority == SIGEV_PULSE_PRIO_INHERIT || is_priority(priority);
    return known && code >= INT8_MIN && code <= INT8_MAX ? 0 : EINVAL;
}

static int send_pulse(int coid, int priority, int code, union sigval value) {
    if (neutrino_remote()) return neutrino_remote_pulse(plain(coid), priority, code, value);
    bool fits = code >= 0 && code != NOTED && (intptr_t)value.sival_ptr == value.sival_int;
    if (fits) return layer_MsgSendPulse(plain(coid), priority, code, value.sival_int);
    int chid = connection_as_is(coid).chid;
    return chid ? send_noted(plain(coid), chid, priority, code, value) : fail(EBADF);
}

static int defer_pulse(int coid, int priority, int code, union sigval value);
static bool is_handling(void);

/* A signal handler may have interrupted a call or the allocator, so the front's own thread sends its
 * pulse. */
int MsgSendPulsePtr(int coid, int priority, int code, void *value) {
    union sigval sent = {.sival_ptr = value};
    if (wrong_pulse(priority, code)) return fail(EINVAL);
    if (holding || is_handling()) return is_connection(coid) ? defer_pulse(coid, priority, code, sent) : fail(EBADF);
    return enter() ? -1 : send_pulse(coid, priority, code, sent);
}

int MsgSendPulse(int coid, int priority, int code, int value) {
    return MsgSendPulsePtr(coid, priority, code, (void *)(intptr_t)value);
}
