/* The states of threads. This kernel knows only READY, SEND, RECEIVE and REPLY. The numbers are this
 * project's. */
#pragma GCC system_header
#ifndef BALSAEUCHRE_QNX_STATES_H
#define BALSAEUCHRE_QNX_STATES_H

#include <sys/neutrino.h> /* STATE_READY, STATE_SEND, STATE_RECEIVE, STATE_REPLY */

enum {
    STATE_DEAD = 0,
    STATE_RUNNING = STATE_REPLY + 1,
    STATE_STOPPED,
    STATE_STACK,
    STATE_WAITTHREAD,
    STATE_WAITPAGE,
    STATE_SIGSUSPEND,
    STATE_SIGWAITINFO,
    STATE_NANOSLEEP,
    STATE_MUTEX,
    STATE_CONDVAR,
    STATE_JOIN,
    STATE_INTR,
    STATE_SEM,
    STATE_WAITCTX,
    STATE_NET_SEND,
    STATE_NET_REPLY,
    STATE_MAX
};

#endif
