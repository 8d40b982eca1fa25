/* Data about the other end: a server looks at its client, and a client lists its connections. */
#include <pthread.h>
#include <stdio.h>
#include <stdlib.h>
#include <sys/netmgr.h>
#include <sys/neutrino.h>
#include <unistd.h>

static int chid;

static void *server(void *arg)
{
    char text[8];
    struct _msg_info info;
    struct _client_info client;

    int rcvid = MsgReceive(chid, text, sizeof text, &info);
    if (ConnectClientInfo(info.scoid, &client, __NGROUPS_MAX) == -1)
        MsgError(rcvid, errno);
    printf("server: my client is %s, of user %s\n", client.pid == getpid() ? "this process" : "another process",
           client.cred.euid == geteuid() ? "mine" : "another's");
    printf("server: on this node: %s\n", ND_NODE_CMP(info.nd, ND_LOCAL_NODE) == 0 ? "yes" : "no");
    if (ConnectClientInfo(info.scoid + 1, &client, 0) == -1)
        perror("another scoid");
    MsgReply(rcvid, info.coid, NULL, 0);
    return arg;
}

int main(void)
{
    pthread_t tid;
    struct _server_info info;
    int count = 0;

    chid = ChannelCreate(0);
    int coid = ConnectAttach(ND_LOCAL_NODE, getpid(), chid, _NTO_SIDE_CHANNEL, _NTO_COF_CLOEXEC);
    int second = ConnectAttach(ND_LOCAL_NODE, 0, chid, 0, 0);
    pthread_create(&tid, NULL, server, NULL);
    printf("the server knows my coid: %s\n", MsgSend(coid, "who", 4, NULL, 0) == coid ? "yes" : "no");
    for (int at = 0; (at = ConnectServerInfo(0, at, &info)) != -1; at++)
        count += info.chid == chid && info.pid == getpid();
    printf("%d connections to it\n", count);
    int flags = ConnectFlags(0, coid, ~0u, 0);
    printf("flags %d, then %d\n", flags, ConnectFlags(0, coid, 0, 0));
    ConnectDetach(second);
    if (ConnectAttach(ND_LOCAL_NODE, getpid() + 1, chid, _NTO_SIDE_CHANNEL, 0) == -1)
        perror("another process");
    if (ConnectServerInfo(0, coid + 1, &info) == -1)
        perror("a greater coid");
    pthread_join(tid, NULL);
    return EXIT_SUCCESS;
}
