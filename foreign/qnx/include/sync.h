/* The types of QNX's Sync* calls. The calls are missing: use pthread_mutex_lock, pthread_cond_wait and
 * sem_wait. */
#pragma GCC system_header
#ifndef BALSAEUCHRE_QNX_SYNC_H
#define BALSAEUCHRE_QNX_SYNC_H

#include <pthread.h>
#include <sys/missing.h>

#define _NTO_SYNC_MUTEX_FREE 0
#define _NTO_SYNC_WAIT (-1)
#define _NTO_SYNC_SEM (-4)
#define _NTO_SYNC_COND (-5)

typedef pthread_mutex_t sync_t;

#endif
