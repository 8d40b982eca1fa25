/* The order of an explored run for ThreadSanitizer, if the program has it. Tested, not proved.
 *
 * Operations before a message, a pulse or a reply come before its receipt. ThreadSanitizer doesn't look at the
 * lock of the kernel and at the turns, which would hide races. */
#include <poll.h>

__attribute__((weak)) void __tsan_acquire(void *at);
__attribute__((weak)) void __tsan_release(void *at);
__attribute__((weak)) void AnnotateIgnoreReadsBegin(const char *file, int line);
__attribute__((weak)) void AnnotateIgnoreReadsEnd(const char *file, int line);
__attribute__((weak)) void AnnotateIgnoreWritesBegin(const char *file, int line);
__attribute__((weak)) void AnnotateIgnoreWritesEnd(const char *file, int line);
__attribute__((weak)) void AnnotateIgnoreSyncBegin(const char *file, int line);
__attribute__((weak)) void AnnotateIgnoreSyncEnd(const char *file, int line);

/* Their addresses are names of channels, by the last bits of the chid, and for tasks. */
static char order_of_channel[1024], order_of_task[TASKS];

static bool has_tsan(void) { return __tsan_acquire && __tsan_release && AnnotateIgnoreSyncBegin; }

static void release_order(void *at) {
    if (has_tsan()) __tsan_release(at);
}

static void acquire_order(void *at) {
    if (has_tsan()) __tsan_acquire(at);
}

/* ThreadSanitizer keeps a signal until its thread calls one of the functions that it replaces, such as poll. So a
 * thread that waits for its turn calls one now and then. */
static const struct timespec *longest_sleep(void) {
    static const struct timespec limit = {0, 10000000};
    return has_tsan() ? &limit : NULL;
}

static void take_signals(void) {
    if (has_tsan()) poll(NULL, 0, 0);
}

/* Orders the uses of the table of names, and the uses of timers, as a lock of each would. */
static void order_uses(uint32_t operation) {
    static char names, timers_set;
    char *at = NULL;
    if (operation == DO_NAME || operation == DO_FIND_NAME) at = &names;
    if (operation == DO_SET_TIMER || operation == DO_EXPIRE) at = &timers_set;
    if (!at) return;
    acquire_order(at);
    release_order(at);
}

static void look_away(void) {
    if (!exploring || !has_tsan()) return;
    AnnotateIgnoreSyncBegin(__FILE__, __LINE__);
    AnnotateIgnoreReadsBegin(__FILE__, __LINE__);
    AnnotateIgnoreWritesBegin(__FILE__, __LINE__);
}

static void look_again(void) {
    if (!exploring || !has_tsan()) return;
    AnnotateIgnoreWritesEnd(__FILE__, __LINE__);
    AnnotateIgnoreReadsEnd(__FILE__, __LINE__);
    AnnotateIgnoreSyncEnd(__FILE__, __LINE__);
}
