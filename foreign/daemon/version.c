/* The version of the daemon and of pidin. Tested, not proved. */
#include "balsaeuchre.h"

/* Prints the version, and "unproved" if the library of this install is unproved. Returns the status of
 * main. */
static int print_version(const char *program) {
    const uint32_t number = BALSAEUCHRE_VERSION & ~BALSAEUCHRE_UNPROVED;
    const char *proof = BALSAEUCHRE_VERSION & BALSAEUCHRE_UNPROVED ? ", unproved" : "";
    return printf("%s %u.%u%s\n", program, number / 100, number % 100, proof) < 0 || fflush(stdout);
}
