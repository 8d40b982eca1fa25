/* recorded CLIENTS MESSAGES: a server and clients as processes. Each client prints the results of its calls
 * in the form of the daemon's record. tests/results compares both. */
#define _GNU_SOURCE
#include "tests.h"

static int messages;

/* Replies with the text backwards, or with an error. */
static void serve(void *unused) {
    char room[100], back[100];
    struct _msg_info info;
    (void)unused;
    name_attach_t *name = name_attach(NULL, "recorded", 0);
    check(name);
    for (long count = 1;; count++) {
        rcvid_t rcvid = receive_answering_opens(name->chid, room, sizeof room, &info);
        if (rcvid <= 0) continue;
        for (ssize_t at = 0; at < info.msglen; at++) back[at] = room[info.msglen - 1 - at];
        if (count % 7 == 0) check(MsgError(rcvid, (int)(1000 + count)) == 0);
        else check(MsgReply(rcvid, count, back, (size_t)info.msglen) == 0);
    }
}

static void ask(void *number) {
    int coid = open_name("recorded");
    for (int at = 0; at < messages; at++) {
        char sent[100], back[100], line[300];
        int length = snprintf(sent, sizeof sent, "client %d sends %*d", (int)(intptr_t)number, 1 + at % 50, at);
        long status = MsgSend(coid, sent, (size_t)length, back, sizeof back);
        if (status == -1) snprintf(line, sizeof line, "\"%s\" => error %d\n", sent, errno);
        else snprintf(line, sizeof line, "\"%s\" => reply %ld \"%.*s\"\n", sent, status, length, back);
        check(write(STDOUT_FILENO, line, strlen(line)) == (ssize_t)strlen(line));
    }
    check(ConnectDetach(coid) == 0);
}

int main(int count, char **words) {
    pid_t clients[10];
    if (count != 3) return 2;
    int all = atoi(words[1]);
    messages = atoi(words[2]);
    pid_t server = spawn(serve, NULL);
    for (int at = 0; at < all; at++) clients[at] = spawn(ask, (void *)(intptr_t)at);
    for (int at = 0; at < all; at++) expect_end(clients[at]);
    kill_child(server);
    return 0;
}
