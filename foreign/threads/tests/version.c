/* A library of another version is refused. Standard error lists the versions, and which of them are unproved.
 * Linked with --wrap=balsaeuchre_version. */
#include "tests.h"

#include <balsaeuchre.h>
#include <stdbool.h>

static uint32_t library;

uint32_t __wrap_balsaeuchre_version(void);
uint32_t __wrap_balsaeuchre_version(void) { return library; }

/* Returns the text of standard error after a program with this header was refused a kernel, over
 * a library of this version. */
static const char *refused(uint32_t header, uint32_t library_version) {
    static char said[2048];
    const struct neutrino_thread one = {1, 1, 1};
    int ends[2], errors = dup(STDERR_FILENO);
    library = library_version;
    check(!pipe(ends) && dup2(ends[1], STDERR_FILENO) == STDERR_FILENO);
    bool is_refused = !neutrino_open_version(header, &one, 1) && errno == ENOEXEC;
    check(dup2(errors, STDERR_FILENO) == STDERR_FILENO && !close(ends[1]) && !close(errors));
    check(is_refused);
    ssize_t length = read(ends[0], said, sizeof said - 1);
    check(length > 0 && !close(ends[0]));
    said[length] = 0;
    return said;
}

static bool has(const char *text, const char *line) { return strstr(text, line) != NULL; }

int main(void) {
    const uint32_t own = NEUTRINO_VERSION, other = NEUTRINO_VERSION ^ BALSAEUCHRE_UNPROVED;
    const bool is_unproved = own & BALSAEUCHRE_UNPROVED;
    const char *said = refused(own, own + 1);
    check(has(said, "the library has version 0.11") && has(said, "the files of one install"));
    check(has(said, "unproved") == is_unproved);
    said = refused(own, other);
    check(has(said, "the library has version 0.10, unproved\n") == !is_unproved);
    check(has(said, "the library has version 0.10\n") == is_unproved);
    said = refused(other, own);
    check(has(said, "the program's header has version 0.10, unproved\n") == !is_unproved);
    check(has(said, "the program's header has version 0.10\n") == is_unproved);
    return 0;
}
