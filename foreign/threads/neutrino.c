/* The layer of threads as one object, which exports only the names of sys/neutrino.h. Tested, not proved. */
#define _GNU_SOURCE
#include "layer.h"

#include "calling.c"
#include "names.c"
#include "sleep.c"
#include "endings.c"
#include "timeouts.c"
#include "under_lock.c"
#include "call.c"
#include "messages.c"
#include "channels.c"
#include "threads.c"
#include "kernel.c"
#include "above.c"
