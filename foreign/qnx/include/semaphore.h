/* The host's semaphore.h. sem_wait ends with ETIMEDOUT after a TimerTimeout with _NTO_TIMEOUT_SEM.
 * sem_timedwait uses up such a timeout, and has only its own limit, as under QNX. balsaeuchre-explore orders
 * these functions. */
#pragma GCC system_header
#ifndef BALSAEUCHRE_QNX_NO_WRAPPERS
#pragma redefine_extname sem_wait neutrino_sem_wait
#pragma redefine_extname sem_trywait neutrino_sem_trywait
#pragma redefine_extname sem_timedwait neutrino_sem_timedwait
#pragma redefine_extname sem_clockwait neutrino_sem_clockwait
#pragma redefine_extname sem_post neutrino_sem_post
#pragma redefine_extname sem_getvalue neutrino_sem_getvalue
#endif
#include_next <semaphore.h>
#ifndef BALSAEUCHRE_QNX_SEMAPHORE_H
#define BALSAEUCHRE_QNX_SEMAPHORE_H
#ifdef __cplusplus
extern "C" {
#endif

/* sem_timedwait with a time of CLOCK_MONOTONIC. */
int sem_timedwait_monotonic(sem_t *semaphore, const struct timespec *until);

#ifdef __cplusplus
}
#endif
#endif
