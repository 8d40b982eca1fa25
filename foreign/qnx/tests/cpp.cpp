// A server and a client in C++, with threads of the standard library, and with its headers next to QNX's.
#include <atomic>
#include <cerrno>
#include <chrono>
#include <csignal>
#include <cstdio>
#include <cstring>
#include <ctime>
#include <pthread.h>
#include <string>
#include <sys/dispatch.h>
#include <sys/iomsg.h>
#include <sys/netmgr.h>
#include <sys/neutrino.h>
#include <thread>
#include <unistd.h>

static std::atomic<int> handled{0};

static void handle(int) { handled++; }

static void serve(int chid, int rounds) {
    char text[32];
    _msg_info info;
    for (int i = 0; i < rounds; i++) {
        rcvid_t rcvid = MsgReceive(chid, text, sizeof text, &info);
        iov_t parts[2];
        SETIOV(&parts[0], text, 2);
        SETIOV(&parts[1], text + 2, 30);
        MsgReplyv(rcvid, info.msglen, parts, 2);
    }
}

struct Connection {
    int coid;
    explicit Connection(int chid) : coid(ConnectAttach(ND_LOCAL_NODE, 0, chid, _NTO_SIDE_CHANNEL, 0)) {}
    ~Connection() { ConnectDetach(coid); }
};

int main() {
    int chid = ChannelCreate(_NTO_CHF_DISCONNECT), right = 0;
    std::thread server(serve, chid, 100);
    {
        Connection connection(chid);
        for (int i = 0; i < 100; i++) {
            std::string sent = "round " + std::to_string(i);
            char back[32];
            long status = MsgSend(connection.coid, sent.c_str(), sent.size() + 1, back, sizeof back);
            right += status == static_cast<long>(sent.size() + 1) && sent == back;
        }
        server.join();
    }
    struct _pulse pulse;
    right += MsgReceivePulse(chid, &pulse, sizeof pulse, nullptr) == 0 && pulse.code == _PULSE_CODE_DISCONNECT;
    std::signal(SIGUSR1, handle);
    pthread_t self = pthread_self();
    std::thread killer([self] {
        std::this_thread::sleep_for(std::chrono::milliseconds(20));
        pthread_kill(self, SIGUSR1);
    });
    right += MsgReceive(chid, &pulse, sizeof pulse, nullptr) == -1 && errno == EINTR && handled == 1;
    killer.join();
    sigevent event;
    Connection own(chid);
    SIGEV_PULSE_INIT(&event, own.coid, SIGEV_PULSE_PRIO_INHERIT, _PULSE_CODE_MINAVAIL, 4);
    timer_t id;
    itimerspec time = {{0, 0}, {0, 1000000}};
    right += timer_create(CLOCK_MONOTONIC, &event, &id) == 0 && timer_settime(id, 0, &time, nullptr) == 0;
    right += MsgReceivePulse(chid, &pulse, sizeof pulse, nullptr) == 0 && pulse.value.sival_int == 4;
    timer_delete(id);
    ChannelDestroy(chid);
    std::printf("%d right\n", right);
    return right == 104 ? 0 : 1;
}
