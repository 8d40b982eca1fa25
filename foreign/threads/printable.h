/* Makes names that programs choose safe for terminals. Tested, not proved. */
#ifndef BALSAEUCHRE_PRINTABLE_H
#define BALSAEUCHRE_PRINTABLE_H

/* Replaces each byte that isn't printable ASCII by ?, as ls does in the C locale. An escape would act on the
 * terminal. After an end of line the name could forge a line of the output. */
static void make_printable(char *name) {
    for (; *name; name++) {
        if (*name < ' ' || *name > '~') *name = '?';
    }
}

#endif
