/* Timers that send pulses: a periodic timer, and a timer of one shot that the fifth tick starts. */
#include <stdio.h>
#include <stdlib.h>
#include <string.h>
#include <sys/neutrino.h>
#include <sys/siginfo.h>
#include <time.h>

#define PULSE_TICK (_PULSE_CODE_MINAVAIL + 0)
#define PULSE_END (_PULSE_CODE_MINAVAIL + 1)

static timer_t make_timer(int coid, int code, long first_ms, long every_ms)
{
    struct sigevent event;
    struct itimerspec itime;
    timer_t id;

    SIGEV_PULSE_INIT(&event, coid, SIGEV_PULSE_PRIO_INHERIT, code, 42);
    if (timer_create(CLOCK_MONOTONIC, &event, &id) == -1) {
        perror("timer_create");
        exit(EXIT_FAILURE);
    }
    memset(&itime, 0, sizeof itime);
    itime.it_value.tv_nsec = first_ms * 1000000;
    itime.it_interval.tv_nsec = every_ms * 1000000;
    timer_settime(id, 0, &itime, NULL);
    return id;
}

int main(void)
{
    union {
        struct _pulse pulse;
        char text[64];
    } msg;
    int ticks = 0, ended = 0;
    int chid = ChannelCreate(0);
    int coid = ConnectAttach(ND_LOCAL_NODE, 0, chid, _NTO_SIDE_CHANNEL, 0);
    timer_t tick = make_timer(coid, PULSE_TICK, 10, 10);
    timer_t end = 0; /* none */

    while (!ended) {
        int rcvid = MsgReceive(chid, &msg, sizeof msg, NULL);
        if (rcvid != 0)
            continue;
        if (msg.pulse.code == PULSE_TICK && ++ticks == 5) {
            printf("five ticks, of value %d\n", msg.pulse.value.sival_int);
            timer_delete(tick);
            end = make_timer(coid, PULSE_END, 20, 0);
        }
        ended = msg.pulse.code == PULSE_END;
    }
    printf("the end, after %s ticks\n", ticks >= 5 ? "all" : "too few");
    timer_delete(end);
    return EXIT_SUCCESS;
}
