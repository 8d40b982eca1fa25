/* A log. The server receives a header, and reads the text after it in blocks. It replies to a query in parts,
 * by MsgWrite. */
#include <errno.h>
#include <pthread.h>
#include <stdio.h>
#include <stdlib.h>
#include <string.h>
#include <sys/neutrino.h>
#include <sys/uio.h>

enum { LOG_APPEND = 0x200, LOG_DUMP, LOG_QUIT };

#define BLOCK 16
#define LINES 8

typedef struct {
    uint16_t type;
    uint16_t severity;
    uint32_t length;
} log_hdr_t;

typedef union {
    uint16_t type;
    struct _pulse pulse;
    log_hdr_t hdr;
} log_msg_t;

static struct {
    char *text;
    size_t length;
    int pid_is_ours;
} lines[LINES];
static int count;

static int append(rcvid_t rcvid, const log_hdr_t *hdr, const struct _msg_info *info)
{
    size_t at = 0;
    char *text;

    if (count == LINES)
        return ENOSPC;
    if (info->srcmsglen != (ssize_t)(sizeof *hdr + hdr->length))
        return EBADMSG;
    if ((text = malloc(hdr->length + 1)) == NULL)
        return ENOMEM;
    while (at < hdr->length) {
        size_t want = hdr->length - at < BLOCK ? hdr->length - at : BLOCK;
        ssize_t got = MsgRead(rcvid, text + at, want, sizeof *hdr + at);
        if (got <= 0) {
            free(text);
            return EFAULT;
        }
        at += (size_t)got;
    }
    text[at] = '\0';
    lines[count].text = text;
    lines[count].length = at;
    lines[count++].pid_is_ours = info->pid == getpid();
    return EOK;
}

static void dump(rcvid_t rcvid, const struct _msg_info *info)
{
    size_t offset = sizeof(uint32_t);
    uint32_t written = 0;

    for (int i = 0; i < count; i++) {
        ssize_t n;
        iov_t iov[3];
        char number[8];
        int digits = snprintf(number, sizeof number, "%d: ", i);

        SETIOV(&iov[0], number, digits);
        SETIOV(&iov[1], lines[i].text, lines[i].length);
        SETIOV(&iov[2], "\n", 1);
        n = MsgWritev(rcvid, iov, 3, offset);
        if (n == -1) {
            perror("MsgWritev");
            break;
        }
        offset += (size_t)n;
        written++;
        if (n < (ssize_t)(digits + (ssize_t)lines[i].length + 1))
            break; /* the client's buffer is full */
    }
    MsgWrite(rcvid, &written, sizeof written, 0);
    printf("dump: %u lines of %d, room %d\n", written, count, (int)info->dstmsglen);
    MsgReply(rcvid, (long)offset, NULL, 0);
}

static void *logger(void *arg)
{
    int chid = *(int *)arg;
    log_msg_t msg;
    struct _msg_info info;

    for (;;) {
        rcvid_t rcvid = MsgReceive(chid, &msg, sizeof msg, &info);
        int err;
        if (rcvid == -1) {
            perror("MsgReceive");
            break;
        }
        if (rcvid == 0)
            continue;
        switch (msg.type) {
        case LOG_APPEND:
            err = append(rcvid, &msg.hdr, &info);
            if (err == EOK)
                MsgReply(rcvid, count, NULL, 0);
            else
                MsgError(rcvid, err);
            break;
        case LOG_DUMP:
            dump(rcvid, &info);
            break;
        case LOG_QUIT:
            MsgReply(rcvid, EOK, NULL, 0);
            return NULL;
        default:
            MsgError(rcvid, ENOSYS);
        }
    }
    return NULL;
}

int main(void)
{
    static const char *const texts[] = {
        "short",
        "a text that is longer than one block of sixteen bytes, so it is read in several",
        "",
        "sixteen bytes ok",
    };
    pthread_t thread;
    char answer[200], little[20];
    iov_t siov[2], riov[2];
    uint32_t n;
    long status;
    int chid = ChannelCreate(0);
    int coid = ConnectAttach(0, 0, chid, _NTO_SIDE_CHANNEL, 0);

    pthread_create(&thread, NULL, logger, &chid);
    for (size_t i = 0; i < sizeof texts / sizeof *texts; i++) {
        log_hdr_t hdr = {.type = LOG_APPEND, .severity = 1, .length = (uint32_t)strlen(texts[i])};
        SETIOV(&siov[0], &hdr, sizeof hdr);
        SETIOV(&siov[1], texts[i], strlen(texts[i]));
        status = MsgSendvs(coid, siov, 2, NULL, 0);
        printf("append %zu: %ld\n", i, status);
    }
    {
        log_hdr_t lie = {.type = LOG_APPEND, .severity = 1, .length = 1000};
        status = MsgSend(coid, &lie, sizeof lie, NULL, 0);
        printf("a length that isn't: %ld, %s\n", status, status == -1 ? strerror(errno) : "");
    }
    {
        log_hdr_t hdr = {.type = LOG_DUMP, .severity = 0, .length = 0};
        memset(answer, 0, sizeof answer);
        SETIOV(&riov[0], &n, sizeof n);
        SETIOV(&riov[1], answer, sizeof answer - 1);
        status = MsgSendsv(coid, &hdr, sizeof hdr, riov, 2);
        printf("%u lines, %ld bytes:\n%s", n, status, answer);
        memset(little, 0, sizeof little);
        status = MsgSend(coid, &hdr, sizeof hdr, little, sizeof little);
        memcpy(&n, little, sizeof n);
        printf("%u lines, %ld bytes: %.16s\n", n, status, little + sizeof n);
        hdr.type = LOG_QUIT;
        MsgSend(coid, &hdr, sizeof hdr, NULL, 0);
    }
    pthread_join(thread, NULL);
    ConnectDetach(coid);
    ChannelDestroy(chid);
    return 0;
}
