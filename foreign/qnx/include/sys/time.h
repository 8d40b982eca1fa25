/* The host's sys/time.h, with a clock that balsaeuchre-explore can set. */
#pragma GCC system_header
#ifndef BALSAEUCHRE_QNX_NO_WRAPPERS
#pragma redefine_extname gettimeofday neutrino_gettimeofday
#endif
#include_next <sys/time.h>
