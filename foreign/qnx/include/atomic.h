/* QNX's operations on an unsigned that threads share. The functions in _value return the old value. */
#pragma GCC system_header
#ifndef BALSAEUCHRE_QNX_ATOMIC_H
#define BALSAEUCHRE_QNX_ATOMIC_H

static inline void atomic_add(volatile unsigned *at, unsigned bits) { __sync_fetch_and_add(at, bits); }
static inline void atomic_sub(volatile unsigned *at, unsigned bits) { __sync_fetch_and_sub(at, bits); }
static inline void atomic_set(volatile unsigned *at, unsigned bits) { __sync_fetch_and_or(at, bits); }
static inline void atomic_clr(volatile unsigned *at, unsigned bits) { __sync_fetch_and_and(at, ~bits); }
static inline void atomic_toggle(volatile unsigned *at, unsigned bits) { __sync_fetch_and_xor(at, bits); }
static inline unsigned atomic_add_value(volatile unsigned *at, unsigned bits) { return __sync_fetch_and_add(at, bits); }
static inline unsigned atomic_sub_value(volatile unsigned *at, unsigned bits) { return __sync_fetch_and_sub(at, bits); }
static inline unsigned atomic_set_value(volatile unsigned *at, unsigned bits) { return __sync_fetch_and_or(at, bits); }
static inline unsigned atomic_clr_value(volatile unsigned *at, unsigned bits) {
    return __sync_fetch_and_and(at, ~bits);
}
static inline unsigned atomic_toggle_value(volatile unsigned *at, unsigned bits) {
    return __sync_fetch_and_xor(at, bits);
}

#endif
