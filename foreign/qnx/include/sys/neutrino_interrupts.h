/* Interrupts. An interrupt line, 0 to 255, is an eventfd of the host. A program or a test raises the line by a write
 * to the eventfd, which neutrino_interrupt_line returns. A part of sys/neutrino.h, which includes it. */
#pragma GCC system_header
#ifndef BALSAEUCHRE_QNX_INTERRUPTS_H
#define BALSAEUCHRE_QNX_INTERRUPTS_H

#include <signal.h>
#include <stdint.h>

#ifdef __cplusplus
extern "C" {
#endif

#define _NTO_INTR_FLAGS_END 1u /* these four change nothing, since the masks of each event are counted */
#define _NTO_INTR_FLAGS_NO_UNMASK 2u
#define _NTO_INTR_FLAGS_PROCESS 4u
#define _NTO_INTR_FLAGS_TRK_MSK 8u

/* Attaches an event to a line. When the line is raised, it is masked once for each of its events, and the
 * events are delivered: SIGEV_PULSE, SIGEV_SIGNAL, SIGEV_SIGNAL_CODE and SIGEV_NONE as by MsgDeliverEvent,
 * SIGEV_SIGNAL_THREAD to the thread that attached, and SIGEV_INTR to its InterruptWait. The receiver ends the
 * mask by InterruptUnmask. A line that is raised while it is masked delivers once more when it is unmasked.
 * No privilege is needed. Returns an id, or -1: EINVAL (no such line, flag or event), EFAULT (no event),
 * EAGAIN (64 events are attached, or the host has no file left). */
int InterruptAttachEvent(int intr, const struct sigevent *event, unsigned flags);
int InterruptAttachEvent_r(int intr, const struct sigevent *event, unsigned flags);

/* Detaches an event, and ends its masks. EINVAL: no such id. */
int InterruptDetach(int id);
int InterruptDetach_r(int id);

/* Mask a line, and end a mask, on behalf of an event or of none (-1). Return the number of masks that the
 * line has now, or -1 and EINVAL: no such line, or the id is another line's. An unmasked line stays
 * unmasked. */
int InterruptMask(int intr, int id);
int InterruptUnmask(int intr, int id);

/* Waits until an event of SIGEV_INTR that this thread has attached is delivered, or returns at once if one was
 * delivered since its last InterruptWait. EINVAL: flags isn't 0; ENOTSUP: reserved isn't null; EINTR;
 * ETIMEDOUT, by TimerTimeout with _NTO_TIMEOUT_INTR. */
int InterruptWait(int flags, const uint64_t *reserved);
int InterruptWait_r(int flags, const uint64_t *reserved);

/* Returns the eventfd of a line, which stays open until the program ends. A write of eventfd_write(fd, 1)
 * raises the line. -1: EINVAL (no such line), EMFILE, and other errors of eventfd. QNX has no such function. */
int neutrino_interrupt_line(int intr);

#ifdef __cplusplus
}
#endif

#endif
