/* program LIBRARY: loads a library that also has a copy of the front, and prints the results of its calls. */
#include <dlfcn.h>
#include <errno.h>
#include <stdio.h>
#include <string.h>
#include <sys/neutrino.h>

int main(int count, char **words) {
    struct _pulse pulse;
    int chid = ChannelCreate(0);
    void *library = count == 2 ? dlopen(words[1], RTLD_NOW) : NULL;
    int (*send_to)(int) = library ? (int (*)(int))dlsym(library, "send_to") : NULL;
    if (!send_to) return 2;
    for (int times = 0; times < 2; times++) {
        if (send_to(chid)) puts(errno == ENOTSUP ? "ENOTSUP" : strerror(errno));
        else printf("%d\n", MsgReceivePulse(chid, &pulse, sizeof pulse, NULL) ? -1 : pulse.value.sival_int);
    }
    return 0;
}
