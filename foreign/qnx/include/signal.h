/* The host's signal.h, with QNX's events. A handler that sigaction or signal has set ends the call in which
 * its thread is blocked, with EINTR, as under QNX. SA_RESTART doesn't change this. */
#pragma GCC system_header
#ifndef BALSAEUCHRE_QNX_NO_WRAPPERS
#pragma redefine_extname sigaction neutrino_sigaction
#pragma redefine_extname signal neutrino_signal
#pragma redefine_extname pthread_kill neutrino_pthread_kill
#endif
#include_next <signal.h>
#include <sys/siginfo.h>
