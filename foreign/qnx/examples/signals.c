/* Signals: a handler that ends MsgReceive, and a handler that sends a pulse to the loop that it
 * interrupts. */
#include <errno.h>
#include <pthread.h>
#include <signal.h>
#include <stdatomic.h>
#include <stdio.h>
#include <stdlib.h>
#include <string.h>
#include <sys/neutrino.h>
#include <unistd.h>

#define CODE_CHILD (_PULSE_CODE_MINAVAIL + 3)

static int coid;
static volatile sig_atomic_t terminated;
static atomic_bool ended;

static void on_term(int signo)
{
    (void)signo;
    terminated = 1;
}

static void on_usr1(int signo)
{
    MsgSendPulse(coid, 20, CODE_CHILD, signo);
}

static void *killer(void *arg)
{
    delay(20);
    pthread_kill(*(pthread_t *)arg, SIGUSR1);
    do { /* until the signal comes while main waits in a call */
        delay(20);
        pthread_kill(*(pthread_t *)arg, SIGTERM);
    } while (!ended);
    return NULL;
}

int main(void)
{
    pthread_t self = pthread_self(), thread;
    struct sigaction action;
    struct _pulse pulse;
    int chid = ChannelCreate(0), pulses = 0;

    coid = ConnectAttach(0, 0, chid, _NTO_SIDE_CHANNEL, 0);
    memset(&action, 0, sizeof action);
    action.sa_handler = on_usr1;
    sigaction(SIGUSR1, &action, NULL);
    signal(SIGTERM, on_term);
    pthread_create(&thread, NULL, killer, &self);
    while (!ended || !pulses) {
        int rcvid = MsgReceive(chid, &pulse, sizeof pulse, NULL);
        if (rcvid == -1 && errno == EINTR) {
            ended = terminated;
        } else if (rcvid == 0) {
            pulses++;
            printf("pulse of the handler: code %s, %s\n", pulse.code == CODE_CHILD ? "right" : "wrong",
                   strsignal(pulse.value.sival_int));
        }
    }
    pthread_join(thread, NULL);
    printf("terminated, by a call that ended: %s\n", ended ? "yes" : "no");
    return EXIT_SUCCESS;
}
