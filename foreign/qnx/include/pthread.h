/* The host's pthread.h. Its threads have QNX's priorities, 1 to 255. The priorities order messages and don't
 * change the host's scheduling, so no call here needs a privilege. These functions differ from the host's:
 *
 *   pthread_create               accepts a null thread. A new thread has the priority of its creator, or with
 *                                PTHREAD_EXPLICIT_SCHED the priority of its attributes
 *   pthread_attr_setschedparam, pthread_attr_getschedparam
 *                                accept and return a priority from 1 to 255 with any policy. EINVAL
 *   pthread_setschedparam, pthread_setschedprio
 *                                change a thread's priority. EINVAL; ESRCH: the thread has no place in the
 *                                kernel, or has ended
 *   pthread_getschedparam        returns the thread's priority, and the policy that was last set, or
 *                                SCHED_RR. ESRCH as above
 *   pthread_cancel               ends a call in which the thread is blocked
 *   pthread_join, pthread_mutex_lock, pthread_cond_wait
 *                                end with ETIMEDOUT after a TimerTimeout with _NTO_TIMEOUT_JOIN, MUTEX or
 *                                CONDVAR
 *   pthread_mutex_timedlock, pthread_cond_timedwait, and the functions with a limit below
 *                                use up such a timeout, and have only their own limit, as under QNX
 *   pthread_setname_np           sets the thread's name in neutrino_show and in a record
 */
#pragma GCC system_header
#ifndef BALSAEUCHRE_QNX_NO_WRAPPERS
#pragma redefine_extname pthread_create neutrino_pthread_create
#pragma redefine_extname pthread_attr_setschedparam neutrino_pthread_attr_setschedparam
#pragma redefine_extname pthread_attr_getschedparam neutrino_pthread_attr_getschedparam
#pragma redefine_extname pthread_setschedparam neutrino_pthread_setschedparam
#pragma redefine_extname pthread_getschedparam neutrino_pthread_getschedparam
#pragma redefine_extname pthread_setschedprio neutrino_pthread_setschedprio
#pragma redefine_extname pthread_cancel neutrino_pthread_cancel
#pragma redefine_extname pthread_join neutrino_pthread_join
#pragma redefine_extname pthread_mutex_lock neutrino_pthread_mutex_lock
#pragma redefine_extname pthread_mutex_timedlock neutrino_pthread_mutex_timedlock
#pragma redefine_extname pthread_cond_wait neutrino_pthread_cond_wait
#pragma redefine_extname pthread_cond_timedwait neutrino_pthread_cond_timedwait
#pragma redefine_extname pthread_setname_np neutrino_pthread_setname_np
#pragma redefine_extname pthread_mutex_clocklock neutrino_pthread_mutex_clocklock
#pragma redefine_extname pthread_mutex_trylock neutrino_pthread_mutex_trylock
#pragma redefine_extname pthread_mutex_unlock neutrino_pthread_mutex_unlock
#pragma redefine_extname pthread_cond_clockwait neutrino_pthread_cond_clockwait
#pragma redefine_extname pthread_cond_signal neutrino_pthread_cond_signal
#pragma redefine_extname pthread_cond_broadcast neutrino_pthread_cond_broadcast
#pragma redefine_extname pthread_barrier_init neutrino_pthread_barrier_init
#pragma redefine_extname pthread_barrier_destroy neutrino_pthread_barrier_destroy
#pragma redefine_extname pthread_barrier_wait neutrino_pthread_barrier_wait
#pragma redefine_extname pthread_rwlock_rdlock neutrino_pthread_rwlock_rdlock
#pragma redefine_extname pthread_rwlock_timedrdlock neutrino_pthread_rwlock_timedrdlock
#pragma redefine_extname pthread_rwlock_tryrdlock neutrino_pthread_rwlock_tryrdlock
#pragma redefine_extname pthread_rwlock_wrlock neutrino_pthread_rwlock_wrlock
#pragma redefine_extname pthread_rwlock_timedwrlock neutrino_pthread_rwlock_timedwrlock
#pragma redefine_extname pthread_rwlock_trywrlock neutrino_pthread_rwlock_trywrlock
#pragma redefine_extname pthread_rwlock_unlock neutrino_pthread_rwlock_unlock
#pragma redefine_extname pthread_spin_lock neutrino_pthread_spin_lock
#pragma redefine_extname pthread_spin_trylock neutrino_pthread_spin_trylock
#pragma redefine_extname pthread_spin_unlock neutrino_pthread_spin_unlock
#pragma redefine_extname pthread_once neutrino_pthread_once
#endif
#include <sched.h>
#pragma push_macro("__nonnull")
#undef __nonnull
#define __nonnull(parameters) /* pthread_create takes a null thread */
#include_next <pthread.h>
#pragma pop_macro("__nonnull")
#ifndef BALSAEUCHRE_QNX_PTHREAD_H
#define BALSAEUCHRE_QNX_PTHREAD_H
#include <stdint.h>
#include <sys/missing.h>
#ifdef __cplusplus
extern "C" {
#endif

/* Makes a recursive mutex. */
#define PTHREAD_RMUTEX_INITIALIZER \
    { \
        { __PTHREAD_MUTEX_INITIALIZER(PTHREAD_MUTEX_RECURSIVE_NP) } \
    }

/* The host declares these two only for _GNU_SOURCE. */
int pthread_setname_np(pthread_t thread, const char *name) __THROW;
int pthread_getname_np(pthread_t thread, char *name, size_t length) __THROW;

/* The limit is a time of CLOCK_REALTIME, or of CLOCK_MONOTONIC in the functions that are named so. They return 0 or
 * an error: ETIMEDOUT, EINVAL (an invalid time), and the errors of pthread_join and pthread_mutex_lock. */
int pthread_timedjoin(pthread_t thread, void **value, const struct timespec *until);
int pthread_timedjoin_monotonic(pthread_t thread, void **value, const struct timespec *until);
int pthread_mutex_timedlock_monotonic(pthread_mutex_t *mutex, const struct timespec *until);

/* One lock of the program, and threads that sleep on an address under this lock. A signal of the address
 * wakes the thread that has slept longest, and a broadcast wakes all its threads. timedwait ends with
 * ETIMEDOUT after nsec nanoseconds; with nsec 0 it has no limit. The functions return 0 or an error. The
 * waits are cancellation points, after which the thread has the lock. */
int pthread_sleepon_lock(void);
int pthread_sleepon_unlock(void);
int pthread_sleepon_wait(const volatile void *addr);
int pthread_sleepon_timedwait(const volatile void *addr, uint64_t nsec);
int pthread_sleepon_signal(const volatile void *addr);
int pthread_sleepon_broadcast(const volatile void *addr);

NEUTRINO_MISSING(pthread_abort);
NEUTRINO_MISSING(pthread_mutex_wakeup_np);

#ifdef __cplusplus
}
#endif
#endif
