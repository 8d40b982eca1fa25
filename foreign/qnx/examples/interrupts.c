/* A driver's loop: an interrupt is delivered as a pulse, and the line stays masked until the driver has read the
 * device. A thread stands for the device: only it uses neutrino_interrupt_line. */
#include <errno.h>
#include <pthread.h>
#include <stdatomic.h>
#include <stdio.h>
#include <stdlib.h>
#include <sys/eventfd.h>
#include <sys/neutrino.h>

#define IRQ 9
#define BYTES 200
#define CODE_INTR _PULSE_CODE_MINAVAIL

/* The device: it counts the bytes that it has, and raises its line with each. */
static atomic_int has;

static void *device(void *arg)
{
    int line = neutrino_interrupt_line(IRQ);

    for (int i = 0; i < BYTES; i++) {
        atomic_fetch_add(&has, 1);
        if (eventfd_write(line, 1) == -1)
            perror("eventfd_write");
        if (i % 10 == 0)
            delay(1);
    }
    return arg;
}

static int serve(int chid, int id)
{
    struct _pulse pulse;
    int got = 0, interrupts = 0;

    while (got < BYTES) {
        if (MsgReceivePulse(chid, &pulse, sizeof pulse, NULL) == -1)
            return -1;
        if (pulse.code != CODE_INTR)
            continue;
        interrupts++;
        got += atomic_exchange(&has, 0);
        if (InterruptUnmask(IRQ, id) == -1)
            perror("InterruptUnmask");
    }
    printf("%d bytes, by no more interrupts: %s\n", got, interrupts <= BYTES + 1 ? "yes" : "no");
    return got;
}

/* The same driver with InterruptWait. */
static void *wait_for_one(void *arg)
{
    struct sigevent event;
    uint64_t timeout = 5000000;
    int id;

    ThreadCtl(_NTO_TCTL_IO, NULL);
    SIGEV_INTR_INIT(&event);
    id = InterruptAttachEvent(IRQ + 1, &event, _NTO_INTR_FLAGS_TRK_MSK);
    TimerTimeout(CLOCK_MONOTONIC, _NTO_TIMEOUT_INTR, NULL, &timeout, NULL);
    if (InterruptWait(0, NULL) == -1)
        printf("no interrupt comes: %s\n", errno == ETIMEDOUT ? "timed out" : "?");
    eventfd_write(neutrino_interrupt_line(IRQ + 1), 1);
    if (InterruptWait(0, NULL) == 0)
        printf("one interrupt, masks: %d\n", InterruptUnmask(IRQ + 1, id));
    InterruptDetach(id);
    return arg;
}

int main(void)
{
    struct sigevent event;
    pthread_t thread;
    int chid = ChannelCreate(0), coid = ConnectAttach(0, 0, chid, _NTO_SIDE_CHANNEL, 0), id;

    if (ThreadCtl(_NTO_TCTL_IO, 0) == -1)
        perror("ThreadCtl");
    SIGEV_PULSE_INIT(&event, coid, SIGEV_PULSE_PRIO_INHERIT, CODE_INTR, 0);
    id = InterruptAttachEvent(IRQ, &event, _NTO_INTR_FLAGS_TRK_MSK);
    if (id == -1) {
        perror("InterruptAttachEvent");
        return EXIT_FAILURE;
    }
    printf("masked by hand: %d", InterruptMask(IRQ, id));
    printf(", and not any more: %d\n", InterruptUnmask(IRQ, id));
    pthread_create(&thread, NULL, device, NULL);
    serve(chid, id);
    pthread_join(thread, NULL);
    printf("detached: %s\n", InterruptDetach(id) == 0 ? "yes" : "no");
    pthread_create(&thread, NULL, wait_for_one, NULL);
    pthread_join(thread, NULL);
    return EXIT_SUCCESS;
}
