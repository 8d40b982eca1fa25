/* The clients of bank.c: three tellers, each a process, and an auditor, who gets the bank's pulses. */
#include <errno.h>
#include <stdio.h>
#include <stdlib.h>
#include <string.h>
#include <sys/dispatch.h>
#include <sys/neutrino.h>
#include <sys/wait.h>

#include "bank.h"

static int open_bank(void)
{
    int coid;
    while ((coid = name_open("bank", 0)) == -1 && errno == ENOENT)
        delay(10);
    return coid;
}

static int teller(void)
{
    bank_request_t msg = {MSG_BOOK, 10, 0};
    int coid = open_bank(), booked = 0;
    for (int i = 0; i < 200; i++)
        booked += MsgSend(coid, &msg, sizeof msg, NULL, 0) == EOK;
    return booked == 200 ? EXIT_SUCCESS : EXIT_FAILURE;
}

int main(void)
{
    struct _pulse pulse;
    int coid = open_bank(), chid = ChannelCreate(0), last = 0, sum = 0, balance = 0, good = 0, status;
    bank_request_t watch = {MSG_WATCH, 0, chid}, withdraw = {MSG_BOOK, -1000000, 0}, ask = {MSG_BOOK, 0, 0},
                   finish = {MSG_CLOSE, 0, 0};

    printf("watch: %ld\n", MsgSend(coid, &watch, sizeof watch, NULL, 0));
    fflush(stdout);
    for (int i = 0; i < 3; i++) {
        if (fork() == 0)
            return teller();
    }
    for (int i = 0; i < 6; i++) {
        MsgReceivePulse(chid, &pulse, sizeof pulse, NULL);
        if (pulse.value.sival_int > last)
            last = pulse.value.sival_int;
        sum += pulse.value.sival_int;
    }
    while (wait(&status) != -1)
        good += WIFEXITED(status) && WEXITSTATUS(status) == EXIT_SUCCESS;
    printf("auditor: passed %d, and %d in all; %d tellers\n", last, sum, good);
    if (MsgSend(coid, &withdraw, sizeof withdraw, NULL, 0) == -1)
        printf("withdrawal: %s\n", strerror(errno));
    MsgSend(coid, &ask, sizeof ask, &balance, sizeof balance);
    printf("balance: %d, %ld\n", balance, MsgSend(coid, &finish, sizeof finish, NULL, 0));
    return EXIT_SUCCESS;
}
