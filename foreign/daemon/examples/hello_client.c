/* A client that finds its server by name and sends one message. */
#include <errno.h>
#include <stdio.h>
#include <stdlib.h>
#include <sys/dispatch.h>
#include <sys/neutrino.h>

int main(void)
{
    char reply[64];
    int coid;

    while ((coid = name_open("hello", 0)) == -1 && errno == ENOENT)
        delay(10); /* the server has not started yet */
    if (coid == -1) {
        perror("name_open");
        return EXIT_FAILURE;
    }
    long status = MsgSend(coid, "hello", sizeof "hello", reply, sizeof reply);
    printf("client: status %ld, \"%s\"\n", status, reply);
    name_close(coid);
    return EXIT_SUCCESS;
}
