/* The layer of threads as one object. Its kernel is the daemon's if the environment has
 * BALSAEUCHRE_SYSTEM. Tested, not proved. */
#define _GNU_SOURCE
#include "layer.h"
#include "remote.h"
#include "wire.h"

#include "../qnx/include/sys/siginfo.h"

#include "calling.c"
#include "names.c"
#include "sleep.c"
#include "endings.c"
#include "timeouts.c"
#include "under_lock.c"

/* The layer's functions for a kernel of the program's own. They have other names here, because remote.c
 * defines functions of the layer's names, which choose between the two kernels. */
static long call_here(struct call *c);
static neutrino *open_here(uint32_t version, const struct neutrino_thread *threads, size_t count);
static int join_here(neutrino *k, int tid);
static int leave_here(void);
static int shutdown_here(neutrino *k);
static int close_here(neutrino *k);
static void interrupt_here(void);
static int cancel_here(neutrino *k, int tid);
static int look_here(neutrino *k, struct neutrino_blocked *all);

#include "link.c"
#include "box.c"
#include "remote.c"
#include "messages.c"
#include "channels.c"
#include "threads.c"
#include "asks.c"

#define call_long call_here
#define neutrino_open_version open_here
#define neutrino_join join_here
#define neutrino_leave leave_here
#define neutrino_shutdown shutdown_here
#define neutrino_close close_here
#define neutrino_interrupt interrupt_here
#define neutrino_cancel cancel_here
#define neutrino_look look_here

#include "call.c"
#include "kernel.c"
#include "above.c"
