/* Tests of the tables of names: turns begin again, and an old name leads to nothing. */
#define _GNU_SOURCE
#include "../neutrino.c"

#include <stdio.h>

#define check(holds) \
    do { \
        if (!(holds)) { \
            fprintf(stderr, "%s:%d: %s\n", __FILE__, __LINE__, #holds); \
            return 1; \
        } \
    } while (0)

static neutrino k;

/* Makes as many names at the same time as there are places, with ids beyond an int. Each name leads to its
 * own id, and each id to its name. */
static int all_at_once(enum table table, int count) {
    static int names[1024];
    for (int at = 0; at < count; at++) {
        names[at] = new_name(&k, table, (1ull << 39) + ((uint64_t)at << 29) + 1, (uint8_t)(at % 200 + 1));
        check(names[at] > 0 && (table != CONNECTIONS || names[at] < SCOID));
    }
    for (int at = 0; at < count; at++) {
        uint64_t id = (1ull << 39) + ((uint64_t)at << 29) + 1;
        check(id_of(&k, table, names[at], 0) == id && number_of(&k, table, id) == names[at]);
        check(id_of(&k, table, names[at], (uint8_t)(at % 200 + 1)) == id && id_of(&k, table, names[at], 201) == 0);
    }
    for (int at = 0; at < count; at++) {
        end_name(&k, table, names[at]);
        check(id_of(&k, table, names[at], 0) == 0);
    }
    return 0;
}

/* Makes and ends names one by one. All places are taken in turn. No name comes again before the turns are
 * over, even while another name stays. */
static int one_by_one(enum table table, bool one_stays) {
    struct names *names = &k.tables[table];
    int count = 1 << names->bits, first = 0, before = 0, stays = 0;
    k.next[table] = (uint64_t)(names->turns - 1) << names->bits;
    if (one_stays) stays = new_name(&k, table, 1ull << 39, 1);
    for (int at = one_stays; at < 3 * count; at++) {
        if (one_stays && at % count == 0) continue;
        int number = new_name(&k, table, (uint64_t)at + 1, 1);
        check(number > 0 && place_in(names, number) == at % count && id_of(&k, table, number, 0) == (uint64_t)at + 1);
        check(table != CONNECTIONS || number < SCOID);
        check(at >= 2 * count ? number < 2 * count : number > before);
        if (!first) first = number;
        else check(number != first && id_of(&k, table, first, 0) == 0);
        before = number;
        end_name(&k, table, number);
    }
    check(names->places[1].turn == 1); /* and not 0: no number is less than 1 */
    check(!one_stays || id_of(&k, table, stays, 0) == 1ull << 39);
    if (one_stays) end_name(&k, table, stays);
    return 0;
}

/* The numbers of channels begin with 1, and continue with the place 0 of the next turn. */
static int from_one(void) {
    for (int number = 1; number < 200; number++) {
        check(new_name(&k, CHANNELS, (uint64_t)number, 1) == number &&
              id_of(&k, CHANNELS, number, 1) == (uint64_t)number);
        check(id_of(&k, CHANNELS, number + 1, 0) == 0 && number_of(&k, CHANNELS, (uint64_t)number) == number);
        end_name(&k, CHANNELS, number);
    }
    return 0;
}

int main(void) {
    open_tables(&k);
    if (from_one()) return 1;
    for (int table = CHANNELS; table < TABLES; table++) {
        if (all_at_once((enum table)table, 1 << k.tables[table].bits)) return 1;
        if (one_by_one((enum table)table, false) || one_by_one((enum table)table, true)) return 1;
    }
    printf("names\n");
    return 0;
}
