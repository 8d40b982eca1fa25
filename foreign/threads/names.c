/* Names: ints for the kernel's ids, which have 40 bits. Tested, not proved.
 *
 * A name is a place in a table and a turn. So it leads to the id for which it was made and, once that id
 * is gone, to none. A table gives its numbers in rising order, and leaves out a number whose place is
 * taken. So the order of two names says which is older. A name comes again after 2^31 channels or
 * messages, or after 2^30 connections. The numbers that are left out also count. In the worst case all
 * places except one are taken, and a name comes again after 2^25 messages or 2^20 connections. All
 * functions here run under the lock.
 */
static void open_tables(neutrino *k) {
    k->tables[CHANNELS] = (struct names){k->channels, INT_MAX >> CHANNEL_BITS, CHANNEL_BITS};
    k->tables[CONNECTIONS] = (struct names){k->connections, (SCOID - 1) >> CONNECTION_BITS, CONNECTION_BITS};
    k->tables[MESSAGES] = (struct names){k->messages, INT_MAX >> MESSAGE_BITS, MESSAGE_BITS};
    k->event.rows = k->rows + OWN_ROWS * PLACES;
    k->side.rows = k->event.rows + BALSAEUCHRE_ROWS;
    k->next[CHANNELS] = 1; /* as under QNX; the other tables begin with turn 1 */
    k->next[CONNECTIONS] = 1 << CONNECTION_BITS;
    k->next[MESSAGES] = 1 << MESSAGE_BITS;
}

static int place_in(const struct names *names, int number) { return number & ((1 << names->bits) - 1); }

/* The number that a table has at this serial. Serials don't come again. After the last number
 * come the numbers of turn 1. */
static int number_at(const struct names *names, uint64_t serial) {
    uint64_t first = 1ull << names->bits, count = (uint64_t)names->turns << names->bits;
    return (int)(serial < first + count ? serial : first + (serial - first) % count);
}

/* Makes the name of a new id. There is a free place, because the kernel has no more ids at a time
 * than the table has places. */
INLINED int new_name(neutrino *k, enum table table, uint64_t id, uint8_t owner) {
    struct names *names = &k->tables[table];
    for (int looked = 0; looked < 1 << names->bits; looked++) {
        int number = number_at(names, k->next[table]++);
        struct name *name = &names->places[place_in(names, number)];
        if (name->id) continue;
        name->id = id;
        name->owner = owner;
        name->turn = (uint32_t)number >> names->bits;
        return number;
    }
    abort();
}

/* Returns the id of a number, if owner is 0 or the name's owner. Otherwise returns 0,
 * which the kernel refuses. */
static uint64_t id_of(const neutrino *k, enum table table, int number, uint8_t owner) {
    const struct names *names = &k->tables[table];
    if (number <= 0) return 0;
    const struct name *name = &names->places[place_in(names, number)];
    if (name->turn != (uint32_t)number >> names->bits || (owner && owner != name->owner)) return 0;
    return name->id;
}

/* Returns the number of an id, or 0. */
static int number_of(const neutrino *k, enum table table, uint64_t id) {
    const struct names *names = &k->tables[table];
    for (int place = 0; place < 1 << names->bits; place++) {
        if (names->places[place].id == id) return (int)(names->places[place].turn << names->bits) | place;
    }
    return 0;
}

static void end_name(neutrino *k, enum table table, int number) {
    const struct names *names = &k->tables[table];
    names->places[place_in(names, number)].id = 0;
}
