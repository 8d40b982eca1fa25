/* QNX's events, in the host's struct sigevent. The numbers are this project's. */
#pragma GCC system_header
#ifndef BALSAEUCHRE_QNX_SIGINFO_H
#define BALSAEUCHRE_QNX_SIGINFO_H

#include <signal.h>
#include <stdint.h>

/* sigev_coid shares its place with sigev_signo, as under QNX. The other two come after the part that the host
 * uses. */
#define sigev_coid sigev_signo
#define sigev_code _sigev_un._pad[10]
#define sigev_priority _sigev_un._pad[11]

/* The types of events, with the host's SIGEV_NONE, SIGEV_SIGNAL and SIGEV_THREAD. */
#define SIGEV_PULSE 0x6e70
#define SIGEV_UNBLOCK 0x6e71
#define SIGEV_SIGNAL_CODE 0x6e72
#define SIGEV_SIGNAL_THREAD 0x6e73
#define SIGEV_INTR 0x6e74 /* only InterruptAttachEvent accepts it */

/* The codes that a program's own signals may have. */
#define SI_MINAVAIL (-128)
#define SI_MAXAVAIL (-64)

/* An event's pulse with this priority gets the priority of the thread that delivers it, or 10 from a
 * timer. */
#define SIGEV_PULSE_PRIO_INHERIT (-1)

/* Flags in sigev_notify. They change nothing. */
#define SIGEV_FLAG_UPDATEABLE 0x10000
#define SIGEV_FLAG_HANDLE 0x20000
#define SIGEV_FLAG_CRITICAL 0x40000
#define SIGEV_FLAG_CODE_UPDATEABLE 0x80000
#define SIGEV_FLAG_MASK 0xf0000
#define SIGEV_GET_TYPE(event) ((event)->sigev_notify & ~SIGEV_FLAG_MASK)
#define SIGEV_SET_TYPE(event, type) ((void)((event)->sigev_notify = ((event)->sigev_notify & SIGEV_FLAG_MASK) | (type)))
#define SIGEV_MAKE_UPDATEABLE(event) ((void)((event)->sigev_notify |= SIGEV_FLAG_UPDATEABLE))
#define SIGEV_CLEAR_UPDATEABLE(event) ((void)((event)->sigev_notify &= ~SIGEV_FLAG_UPDATEABLE))
#define SIGEV_MAKE_CODE_UPDATEABLE(event) ((void)((event)->sigev_notify |= SIGEV_FLAG_CODE_UPDATEABLE))
#define SIGEV_MAKE_CRITICAL(event) ((void)((event)->sigev_notify |= SIGEV_FLAG_CRITICAL))
#define SIGEV_CLEAR_CRITICAL(event) ((void)((event)->sigev_notify &= ~SIGEV_FLAG_CRITICAL))

#ifdef SIGEV_NONE /* the host has struct sigevent if the program asks for POSIX */
static inline void neutrino_set_event(struct sigevent *event, int type, int signo_or_coid, int priority, int code,
                                      void *value) {
    event->sigev_notify = type;
    event->sigev_signo = signo_or_coid;
    event->sigev_priority = priority;
    event->sigev_code = code;
    event->sigev_value.sival_ptr = value;
}
#endif

#define SIGEV_NONE_INIT(event) ((void)((event)->sigev_notify = SIGEV_NONE))
#define SIGEV_INTR_INIT(event) ((void)((event)->sigev_notify = SIGEV_INTR))
#ifndef SIGEV_UNBLOCK_INIT
#define SIGEV_UNBLOCK_INIT(event) ((void)((event)->sigev_notify = SIGEV_UNBLOCK))
#endif
#define SIGEV_SIGNAL_INIT(event, signo) neutrino_set_event(event, SIGEV_SIGNAL, signo, 0, 0, 0)
#define SIGEV_SIGNAL_CODE_INIT(event, signo, value, code) \
    neutrino_set_event(event, SIGEV_SIGNAL_CODE, signo, 0, code, (void *)(intptr_t)(value))
#define SIGEV_SIGNAL_CODE_INT_INIT SIGEV_SIGNAL_CODE_INIT
#define SIGEV_SIGNAL_CODE_PTR_INIT SIGEV_SIGNAL_CODE_INIT
#define SIGEV_SIGNAL_THREAD_INIT(event, signo, value, code) \
    neutrino_set_event(event, SIGEV_SIGNAL_THREAD, signo, 0, code, (void *)(intptr_t)(value))
#define SIGEV_SIGNAL_THREAD_INT_INIT SIGEV_SIGNAL_THREAD_INIT
#define SIGEV_SIGNAL_THREAD_PTR_INIT SIGEV_SIGNAL_THREAD_INIT
#define SIGEV_SIGNAL_VALUE_INIT(event, signo, value) SIGEV_SIGNAL_CODE_INIT(event, signo, value, 0)
#define SIGEV_SIGNAL_VALUE_INT_INIT SIGEV_SIGNAL_VALUE_INIT
#define SIGEV_SIGNAL_VALUE_PTR_INIT SIGEV_SIGNAL_VALUE_INIT
#define SIGEV_PULSE_INIT(event, coid, priority, code, value) \
    neutrino_set_event(event, SIGEV_PULSE, coid, priority, code, (void *)(intptr_t)(value))
#define SIGEV_PULSE_INT_INIT(event, coid, priority, code, value) \
    SIGEV_PULSE_INIT(event, coid, priority, code, (int)(value))
#define SIGEV_PULSE_PTR_INIT SIGEV_PULSE_INIT

#endif
