/* pidin: prints the programs of a daemon. Tested, not proved.
 *
 * It prints each thread's priority, its state and the thread on which it is blocked. Of each channel
 * it prints how many messages are queued and how many are held, how many pulses and how many threads
 * wait there, and its name. */
#define _GNU_SOURCE
#include "wire.h"

#include <errno.h>
#include <stdbool.h>
#include <stdio.h>
#include <stdlib.h>
#include <string.h>
#include <unistd.h>

static int fail(int error) {
    errno = error;
    return -1;
}

#include "link.c"
#include "version.c"

/* Replaces each byte that would act on the terminal by ?. The daemon replaces them in names. But the program
 * at another user's socket may not do that. */
static void make_text(char *text, size_t length) {
    for (size_t at = 0; at < length; at++) {
        if (text[at] != '\n' && (text[at] < ' ' || text[at] > '~')) text[at] = '?';
    }
}

int main(int count, char **words) {
    static char text[65536];
    struct wire_ask ask = {.op = OP_SHOW};
    struct wire_answer answer;
    if (count == 2 && !strcmp(words[1], "--version")) return print_version("pidin");
    const char *path = count > 1 ? words[1] : getenv("BALSAEUCHRE_SYSTEM");
    if (count > 2 || !path || *path == '-') {
        fputs("usage: pidin [SOCKET]\nPrints the programs of the balsaeuchred at SOCKET, by default at "
              "BALSAEUCHRE_SYSTEM. pidin --version prints its version.\n",
              stderr);
        return 2;
    }
    int fd = connect_to(path);
    struct iovec none = {NULL, 0}, room = {text, sizeof text};
    if (fd == -1 || exchange(fd, &ask, none, &answer, room, NULL) == -1) {
        fprintf(stderr, "pidin: %s: %s\n", path, strerror(errno));
        return 1;
    }
    make_text(text, answer.length);
    return fwrite(text, 1, answer.length, stdout) != answer.length || fflush(stdout);
}
