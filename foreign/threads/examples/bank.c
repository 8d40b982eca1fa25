/* A server with two threads and its clients, as one writes them for QNX. The server keeps accounts, and sends
 * pulses to a client that watches an account.
 *
 * Three tellers book on one account at the same time, 200 times each. An auditor watches the account: it
 * gives the bank its own channel, and gets a pulse for each multiple of 1,000 that the balance passes. Two
 * things differ from QNX: the kernel is opened, and each thread joins it and leaves.
 */
#include <errno.h>
#include <pthread.h>
#include <stdint.h>
#include <stdio.h>
#include <string.h>
#include <sys/neutrino.h>

/* Threads. The first four are processes, too. */
enum { BANK = 1, AUDITOR, MANAGER, TELLERS = 10, SECOND = 20 };
enum { NTELLERS = 3, NSERVERS = 2, BOOKINGS = 200, AMOUNT = 10, ACCOUNTS = 4 };
enum { MSG_BOOK = 0x201, MSG_BALANCE, MSG_WATCH };
enum { CODE_PASSED = _PULSE_CODE_MINAVAIL, CODE_STOP };

typedef struct {
    uint16_t type, account;
    int32_t amount, chid;
} bank_request_t;
typedef union {
    struct _pulse pulse;
    bank_request_t request;
} bank_msg_t;
typedef struct {
    int32_t balance;
    int watcher;
} account_t;

static neutrino *kernel;
static int bank_chid;
static account_t accounts[ACCOUNTS];
static int disconnected;
static pthread_mutex_t bank_mutex = PTHREAD_MUTEX_INITIALIZER; /* of accounts and disconnected */
static pthread_barrier_t watching, attached;

static int attach(int tid) {
    neutrino_join(kernel, tid);
    return ConnectAttach(ND_LOCAL_NODE, BANK, bank_chid, _NTO_SIDE_CHANNEL, 0);
}

static int book(int rcvid, account_t *account, int32_t amount) {
    pthread_mutex_lock(&bank_mutex);
    int32_t before = account->balance, after = before + amount;
    int watcher = account->watcher;
    if (after >= 0) account->balance = after;
    pthread_mutex_unlock(&bank_mutex);
    if (after < 0) return ERANGE;
    if (watcher && after / 1000 > before / 1000) MsgSendPulse(watcher, 30, CODE_PASSED, after / 1000 * 1000);
    MsgReply(rcvid, EOK, &after, sizeof after);
    return EOK;
}

static int watch(int rcvid, account_t *account, pid_t pid, int chid) {
    int coid = ConnectAttach(ND_LOCAL_NODE, pid, chid, _NTO_SIDE_CHANNEL, 0);
    if (coid == -1) return errno;
    pthread_mutex_lock(&bank_mutex);
    account->watcher = coid;
    pthread_mutex_unlock(&bank_mutex);
    MsgReply(rcvid, EOK, NULL, 0);
    return EOK;
}

static int handle_request(int rcvid, const bank_request_t *msg, const struct _msg_info *info) {
    if ((size_t)info->msglen < sizeof *msg) return EBADMSG;
    if (msg->account >= ACCOUNTS) return ENOENT;
    switch (msg->type) {
    case MSG_BOOK:
        return book(rcvid, &accounts[msg->account], msg->amount);
    case MSG_BALANCE:
        return book(rcvid, &accounts[msg->account], 0);
    case MSG_WATCH:
        return watch(rcvid, &accounts[msg->account], info->pid, msg->chid);
    default:
        return ENOSYS;
    }
}

static int handle_pulse(const struct _pulse *pulse) {
    if (pulse->code == CODE_STOP) return -1;
    if (pulse->code == _PULSE_CODE_DISCONNECT) {
        pthread_mutex_lock(&bank_mutex);
        disconnected++; /* the tellers' process, and the auditor's */
        pthread_mutex_unlock(&bank_mutex);
        ConnectDetach(pulse->scoid);
    }
    return 0;
}

static void *bank(void *tid) {
    bank_msg_t msg;
    struct _msg_info info;
    neutrino_join(kernel, (int)(intptr_t)tid);
    for (;;) {
        int rcvid = MsgReceive(bank_chid, &msg, sizeof msg, &info);
        if (rcvid == -1 || (rcvid == 0 && handle_pulse(&msg.pulse) == -1)) break;
        int error = rcvid > 0 ? handle_request(rcvid, &msg.request, &info) : EOK;
        if (error != EOK) MsgError(rcvid, error);
    }
    neutrino_leave();
    return NULL;
}

static void *teller(void *tid) {
    const bank_request_t msg = {MSG_BOOK, 1, AMOUNT, 0};
    intptr_t booked = 0;
    int coid = attach((int)(intptr_t)tid);
    pthread_barrier_wait(&attached);
    for (int i = 0; i < BOOKINGS; i++) {
        if (MsgSend(coid, &msg, sizeof msg, NULL, 0) == EOK) booked += msg.amount;
    }
    ConnectDetach(coid);
    neutrino_leave();
    return (void *)booked;
}

static void ask(int coid, const char *what, const bank_request_t *msg) {
    int32_t balance = 0;
    long status = MsgSend(coid, msg, sizeof *msg, &balance, sizeof balance);
    printf("%s: %s, %d\n", what, status == -1 ? strerror(errno) : "ok", (int)balance);
}

static void *auditor(void *arg) {
    struct _pulse pulse;
    int coid = attach(AUDITOR), chid = ChannelCreate(0), last = 0, sum = 0;
    ask(coid, "watch", &(bank_request_t){MSG_WATCH, 1, 0, chid});
    ask(coid, "watch by a channel that is none", &(bank_request_t){MSG_WATCH, 1, 0, -1});
    ask(coid, "watch of an account that is none", &(bank_request_t){MSG_WATCH, 9, 0, chid});
    pthread_barrier_wait(&watching);
    for (int count = 0; count < NTELLERS * BOOKINGS * AMOUNT / 1000; count++) {
        MsgReceivePulse(chid, &pulse, sizeof pulse, NULL);
        if (pulse.value.sival_int > last) last = pulse.value.sival_int;
        sum += pulse.value.sival_int;
    }
    printf("auditor: passed %d, and %d in all\n", last, sum);
    ConnectDetach(coid);
    ChannelDestroy(chid);
    neutrino_leave();
    return arg;
}

int main(void) {
    struct neutrino_thread threads[4 + NTELLERS] = {
        {BANK, BANK, 10}, {SECOND, BANK, 10}, {AUDITOR, AUDITOR, 20}, {MANAGER, MANAGER, 5}};
    pthread_t tellers[NTELLERS], banks[NSERVERS], audits;
    int booked = 0;
    for (int i = 0; i < NTELLERS; i++) threads[4 + i] = (struct neutrino_thread){(uint8_t)(TELLERS + i), TELLERS, 15};
    kernel = neutrino_open(threads, 4 + NTELLERS);
    if (!kernel) return 1;
    neutrino_join(kernel, BANK); /* the bank's channel, before its threads begin */
    bank_chid = ChannelCreate(_NTO_CHF_DISCONNECT);
    neutrino_leave();
    int coid = attach(MANAGER);
    pthread_barrier_init(&watching, NULL, 2);
    pthread_barrier_init(&attached, NULL, NTELLERS);
    pthread_create(&banks[0], NULL, bank, (void *)BANK);
    pthread_create(&banks[1], NULL, bank, (void *)SECOND);
    pthread_create(&audits, NULL, auditor, NULL);
    pthread_barrier_wait(&watching);
    for (intptr_t i = 0; i < NTELLERS; i++) pthread_create(&tellers[i], NULL, teller, (void *)(TELLERS + i));
    for (int i = 0; i < NTELLERS; i++) {
        void *result;
        pthread_join(tellers[i], &result);
        booked += (int)(intptr_t)result;
    }
    pthread_join(audits, NULL);
    printf("booked: %d\n", booked);
    ask(coid, "balance", &(bank_request_t){MSG_BALANCE, 1, 0, 0});
    ask(coid, "withdrawal", &(bank_request_t){MSG_BOOK, 1, -1000000, 0});
    for (int i = 0; i < NSERVERS; i++) MsgSendPulse(coid, -1, CODE_STOP, 0);
    for (int i = 0; i < NSERVERS; i++) pthread_join(banks[i], NULL);
    printf("disconnects: %d\n", disconnected);
    neutrino_leave();
    return neutrino_close(kernel);
}
