/* The host's unistd.h, with QNX's delay and gettid. A timeout with _NTO_TIMEOUT_NANOSLEEP ends sleep, usleep and
 * delay: sleep and delay return the time that is left, and usleep fails with ETIMEDOUT. */
#pragma GCC system_header
#ifndef BALSAEUCHRE_QNX_NO_WRAPPERS
#pragma redefine_extname gettid neutrino_gettid
#pragma redefine_extname sleep neutrino_sleep
#pragma redefine_extname usleep neutrino_usleep
#pragma redefine_extname _exit neutrino__exit
#endif
#include_next <unistd.h>
#ifndef BALSAEUCHRE_QNX_UNISTD_H
#define BALSAEUCHRE_QNX_UNISTD_H
#ifdef __cplusplus
extern "C" {
#endif

/* Sleeps for this number of milliseconds. Returns 0, or the number that was left when a signal handler or a
 * timeout ended the sleep. */
unsigned delay(unsigned milliseconds);

/* Returns the calling thread's tid, as in struct _msg_info. -1: the thread has no place in the kernel. */
int gettid(void) __THROW;

#ifdef __cplusplus
}
#endif
#endif
