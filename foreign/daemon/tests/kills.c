/* kills KILLS SEED: servers and clients as processes. Again and again one of them is killed at a random time.
 * After each kill all others have to continue. */
#define _GNU_SOURCE
#include "tests.h"

#include <sys/mman.h>
#include <time.h>

enum { SERVERS = 3, WORKERS = 8, LONG = 100000 };

struct progress {
    volatile long count;
    volatile int step;
};
static struct progress *progress; /* by worker */
static int worker;

static void note(int step) {
    progress[worker].count++;
    progress[worker].step = step;
}

static bool is_gone(int error) { return error == ESRCH || error == EBADF || error == ENOENT || error == EAGAIN; }

static unsigned rest_of(unsigned length, unsigned at) { return (length * 7 + at) & 127; }

/* Changes each byte, so that the old content of a box isn't a correct reply. */
static void invert(char *bytes, size_t length) {
    for (size_t at = 0; at < length; at++) bytes[at] = (char)~bytes[at];
}

/* Replies to a message in one of four ways. The message begins with its length in bytes. */
static void answer(rcvid_t rcvid, char *room, const struct _msg_info *info) {
    uint32_t length;
    memcpy(&length, room, sizeof length);
    check((ssize_t)length == info->srcmsglen && info->msglen == info->srcmsglen);
    for (uint32_t at = 4; at < length; at++) check((unsigned)room[at] == rest_of(length, at));
    int how = rand() % 4;
    if (how == 0) check(MsgRead(rcvid, room, length, 0) == (ssize_t)length || errno == ESRCH);
    invert(room, length);
    if (how == 1) check(MsgWrite(rcvid, room, length, 0) == (ssize_t)length || errno == ESRCH);
    if (how == 2) check(MsgError(rcvid, 1000) == 0 || errno == ESRCH);
    else check(MsgReply(rcvid, length, room, how == 1 ? 0 : length) == 0 || errno == ESRCH);
}

static void serve(void *at) {
    static char room[LONG];
    char name[8];
    struct _msg_info info;
    worker = (int)(intptr_t)at;
    srand((unsigned)getpid());
    snprintf(name, sizeof name, "s%d", worker);
    for (;;) {
        name_attach_t *attached = name_attach(NULL, name, 0);
        note(1);
        check(attached || errno == EEXIST || errno == EBUSY || errno == EAGAIN);
        if (!attached) usleep(500);
        for (int left = attached ? 200 + rand() % 2000 : 0; left; left--) {
            set_timeout(1 + rand() % 20);
            rcvid_t rcvid = receive_answering_opens(attached->chid, room, sizeof room, &info);
            check(rcvid >= 0 || errno == ETIMEDOUT);
            note(2);
            const struct _pulse *pulse = (const void *)room;
            if (rcvid > 0) answer(rcvid, room, &info);
            else if (rcvid == 0 && pulse->code == _PULSE_CODE_UNBLOCK) MsgError(pulse->value.sival_int, EINTR);
        }
        check(!attached || name_detach(attached, 0) == 0);
    }
}

/* Sends a message, and checks the reply. Returns whether the connection still works. */
static bool ask(int coid, char *sent, char *back) {
    uint32_t length = 4 + (uint32_t)rand() % (rand() % 16 ? 100 : LONG - 4);
    if ((uint16_t)length == _IO_CONNECT) length--; /* the server would take the message for a name_open */
    memcpy(sent, &length, sizeof length);
    for (uint32_t at = 4; at < length; at++) sent[at] = (char)rest_of(length, at);
    memset(back, 0x55, length);
    if (rand() % 16 == 0 && MsgSendPulse(coid, -1, 3, 7)) {
        check(is_gone(errno));
        return false;
    }
    if (rand() % 8 == 0) set_timeout(1 + rand() % 3);
    long status = MsgSend(coid, sent, length, back, length);
    note(3);
    if (status == -1 && (errno == 1000 || errno == ETIMEDOUT || errno == EINTR)) return true;
    int error = errno;
    if (status != -1) invert(back, length);
    check(status == -1 ? is_gone(error) : status == (long)length && memcmp(back, sent, length) == 0);
    return status != -1;
}

static void ask_on(void *at) {
    static char sent[LONG], back[LONG];
    char name[8];
    worker = (int)(intptr_t)at;
    srand((unsigned)getpid());
    for (;;) {
        snprintf(name, sizeof name, "s%d", rand() % SERVERS);
        int coid = name_open(name, 0);
        note(4);
        check(coid != -1 || is_gone(errno));
        if (coid == -1) usleep(500);
        for (int left = rand() % 200; coid != -1 && left && ask(coid, sent, back); left--) continue;
        check(coid == -1 || ConnectDetach(coid) == 0 || errno == EAGAIN);
    }
}

static pid_t begin(int at) { return spawn(at < SERVERS ? serve : ask_on, (void *)(intptr_t)at); }

/* Waits until each of the others has done something. */
static void expect_progress(int but, const pid_t *pids) {
    long before[WORKERS];
    time_t start = time(NULL);
    for (int at = 0; at < WORKERS; at++) before[at] = progress[at].count;
    for (int at = 0; at < WORKERS; at++) {
        while (at != but && progress[at].count == before[at]) {
            check(waitpid(pids[at], NULL, WNOHANG) == 0);
            if (time(NULL) > start + PATIENCE) fprintf(stderr, "worker %d is at step %d\n", at, progress[at].step);
            check(time(NULL) <= start + PATIENCE);
            usleep(100);
        }
    }
}

int main(int count, char **words) {
    pid_t pids[WORKERS];
    if (count != 3) return 2;
    progress = mmap(NULL, WORKERS * sizeof *progress, PROT_READ | PROT_WRITE, MAP_SHARED | MAP_ANONYMOUS, -1, 0);
    check(progress != MAP_FAILED);
    int kills = atoi(words[1]), servers = 0;
    srand((unsigned)atoi(words[2]));
    for (int at = 0; at < WORKERS; at++) pids[at] = begin(at);
    for (int turn = 0; turn < kills; turn++) {
        int victim = rand() % WORKERS;
        usleep((useconds_t)(rand() % 3000));
        alarm(2 * PATIENCE);
        kill_child(pids[victim]);
        servers += victim < SERVERS;
        expect_progress(victim, pids);
        pids[victim] = begin(victim);
    }
    for (int at = 0; at < WORKERS; at++) kill_child(pids[at]);
    printf("%d kills of servers, %d of clients\n", servers, kills - servers);
    return 0;
}
