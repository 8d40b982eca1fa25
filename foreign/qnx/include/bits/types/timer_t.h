/* The host's headers take timer_t from here. Under QNX it is a number, and 0 names no timer. */
#pragma GCC system_header
#ifndef __timer_t_defined
#define __timer_t_defined 1
typedef int timer_t;
#endif
