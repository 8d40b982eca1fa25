/* A server and a client: one message and its reply. */
#include <pthread.h>
#include <stdio.h>
#include <sys/neutrino.h>

static neutrino *kernel;
static int chid;

static void *server(void *arg) {
    char text[16];
    neutrino_join(kernel, 1);
    int rcvid = MsgReceive(chid, text, sizeof text, NULL); /* sleeps until a message is there */
    printf("server: %s\n", text);
    MsgReply(rcvid, 7, "world", 6);
    neutrino_leave();
    return arg;
}

int main(void) {
    const struct neutrino_thread threads[] = {{1, 1, 10}, {2, 2, 10}}; /* tid, pid, priority */
    char reply[16];
    pthread_t thread;
    kernel = neutrino_open(threads, 2);
    if (!kernel) return 1;
    neutrino_join(kernel, 1); /* the server's channel, before its thread begins */
    chid = ChannelCreate(0);
    neutrino_leave();
    pthread_create(&thread, NULL, server, NULL);
    neutrino_join(kernel, 2);
    int coid = ConnectAttach(ND_LOCAL_NODE, 1, chid, _NTO_SIDE_CHANNEL, 0);
    long status = MsgSend(coid, "hello", 6, reply, sizeof reply); /* sleeps until the reply */
    printf("client: %ld %s\n", status, reply);
    pthread_join(thread, NULL);
    neutrino_leave();
    return neutrino_close(kernel);
}
