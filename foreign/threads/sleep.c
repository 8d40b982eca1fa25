/* The lock, and the words at which threads sleep. Tested, not proved; models/sleeping.py explores the
 * word. */
#include <linux/futex.h>
#include <sys/syscall.h>

/* How many times a thread tries the lock, and looks at its word, before it sleeps. If all looks fail, the
 * thread's next call has half as many, but at least a fifth of WORD_LOOKS, which takes some microseconds.
 * With fewer looks, two threads that slept once would always sleep. A thread never yields its core: on a busy
 * machine a yield takes milliseconds, while a sleep ends at once. On one processor it doesn't look at its
 * word, because the thread for which it waits can't run meanwhile. */
#ifndef LOCK_LOOKS
#define LOCK_LOOKS 100
#endif
#ifndef WORD_LOOKS
#define WORD_LOOKS 2000
#endif

static void pause_briefly(void) {
#ifdef __x86_64__
    __builtin_ia32_pause();
#else
    /* On other processors, on which this isn't tested, it looks without a pause. */
    atomic_signal_fence(memory_order_seq_cst);
#endif
}

/* Takes the lock, in a call that inside counts already. */
static void take(neutrino *k) {
    for (int looks = 0; looks < LOCK_LOOKS; looks++) {
        if (pthread_mutex_trylock(&k->lock) == 0) return;
        for (int pauses = 0; pauses < 8; pauses++) pause_briefly();
    }
    pthread_mutex_lock(&k->lock);
}

static void release(neutrino *k) { pthread_mutex_unlock(&k->lock); }

static void lock(neutrino *k) {
    inside++;
    take(k);
}

static void unlock(neutrino *k) {
    release(k);
    inside--;
}

/* Returns the nanoseconds of CLOCK_MONOTONIC, or the scheduler's time. */
static uint64_t now(void) {
    struct timespec t;
    if (kernel && kernel->scheduler) return kernel->scheduler->now();
    clock_gettime(CLOCK_MONOTONIC, &t);
    return (uint64_t)t.tv_sec * 1000000000u + (uint64_t)t.tv_nsec;
}

static void open_word(struct place *p, bool interrupted) {
    atomic_store_explicit(&p->word, interrupted ? INTERRUPTED : OPEN, memory_order_relaxed);
}

static bool is_ended(struct place *p) { return atomic_load_explicit(&p->word, memory_order_acquire) == ENDED; }

/* Spins at the word. Returns whether the call is completed. */
static bool look(struct place *p) {
    for (int looks = 0; looks <= p->looks; looks++) {
        uint32_t word = atomic_load_explicit(&p->word, memory_order_acquire);
        if (word == INTERRUPTED) return false;
        if (word == ENDED) {
            p->looks = p->looks < WORD_LOOKS / 2 ? 2 * p->looks + 1 : WORD_LOOKS;
            return true;
        }
        pause_briefly();
    }
    if (p->looks > 0) p->looks = p->looks / 2 < WORD_LOOKS / 5 ? WORD_LOOKS / 5 : p->looks / 2;
    return false;
}

enum woken { HAS_ENDED, TIMED_OUT, WAS_INTERRUPTED };

/* Waits like sleep_until, for the scheduler. */
__attribute__((noinline, cold)) static enum woken wait_for_turn(struct place *p, uint64_t until) {
    for (;;) {
        bool is_late = kernel->scheduler->wait(p->tid, &p->word, until);
        if (is_ended(p)) return HAS_ENDED;
        if (atomic_load(&p->word) == INTERRUPTED) return WAS_INTERRUPTED;
        if (is_late) return TIMED_OUT;
    }
}

/* A function of ThreadSanitizer, or null in a program without it. */
__attribute__((weak)) void __tsan_acquire(void *at);

/* Sleeps at the word, until a time that is not 0. Returns whether this time has come. ThreadSanitizer keeps a
 * signal until its thread calls one of the functions that it replaces. So with it a thread sleeps for up to
 * SLICE nanoseconds, and then calls one, clock_gettime. */
static bool sleep_at_word(struct place *p, uint64_t until) {
    enum { SLICE = 10000000 };
    uint64_t slice = __tsan_acquire ? now() + SLICE : 0;
    bool is_cut = slice && (!until || slice < until);
    uint64_t last = is_cut ? slice : until;
    struct timespec end = {(time_t)(last / 1000000000u), (long)(last % 1000000000u)};
    long woken = syscall(SYS_futex, &p->word, FUTEX_WAIT_BITSET_PRIVATE, ASLEEP, last ? &end : NULL, NULL,
                         FUTEX_BITSET_MATCH_ANY);
    return woken == -1 && errno == ETIMEDOUT && !is_cut;
}

/* Waits until the call is completed or interrupted, or until a time that is not 0. An interruption changes
 * the word, which futex compares. So no interruption is lost, wherever in this function its handler runs. */
static enum woken sleep_until(struct place *p, uint64_t until) {
    uint32_t open = OPEN;
    if (kernel->scheduler) return wait_for_turn(p, until);
    if (look(p)) return HAS_ENDED;
    atomic_compare_exchange_strong(&p->word, &open, ASLEEP);
    while (!is_ended(p)) {
        if (atomic_load(&p->word) == INTERRUPTED) return WAS_INTERRUPTED;
        if (sleep_at_word(p, until)) return is_ended(p) ? HAS_ENDED : TIMED_OUT;
    }
    return HAS_ENDED;
}

/* Marks an open call as interrupted. Returns whether its thread slept. */
static bool interrupt_word(struct place *p) {
    uint32_t open = OPEN, asleep = ASLEEP;
    return !atomic_compare_exchange_strong(&p->word, &open, INTERRUPTED) &&
           atomic_compare_exchange_strong(&p->word, &asleep, INTERRUPTED);
}

/* Tells the scheduler that the calls of these threads have ended. It is out of line, so that tell stays small. */
__attribute__((noinline, cold)) static void tell_scheduler(const neutrino *k, uint64_t ended) {
    for (; ended; ended &= ended - 1) k->scheduler->ended(k->places[__builtin_ctzll(ended)].tid);
}

/* Sets the words of these threads to ENDED. Returns the threads that sleep. */
static inline uint64_t tell(neutrino *k, uint64_t ended) {
    uint64_t asleep = 0;
    for (uint64_t left = ended; left; left &= left - 1) {
        int place = __builtin_ctzll(left);
        if (atomic_exchange(&k->places[place].word, ENDED) == ASLEEP) asleep |= 1ull << place;
    }
    if (k->scheduler) tell_scheduler(k, ended);
    return asleep;
}

/* Wakes these threads, without the lock. A kernel is not closed while this thread is joined. */
static void wake(neutrino *k, uint64_t asleep) {
    for (; asleep; asleep &= asleep - 1) {
        syscall(SYS_futex, &k->places[__builtin_ctzll(asleep)].word, FUTEX_WAKE_PRIVATE, 1, NULL, NULL, 0);
    }
}
