//! The word at which a port's thread waits for the completion of its call.

use crate::kernel::Mark;
use crate::shared::Lent;
use std::cell::UnsafeCell;
use std::hint;
use std::mem::offset_of;
use std::sync::atomic::{AtomicU32, Ordering};
use std::thread::{self, Thread};
use std::time::Instant;

/// A thread spins before it sleeps: it looks at its word at most this many times, with a pause after each
/// look. If the spin ends without the completion, the next call has half as many looks, down to a fifth of
/// this number. A fifth takes some microseconds. With fewer looks, two threads that slept once would always
/// sleep.
pub(crate) const LOOKS: u32 = 2000;

/// Returns the number of looks of a port's first call: `most`, or 0 on one processor. There the thread that
/// it waits for can't run during a spin.
pub(crate) fn first_looks(most: u32) -> u32 {
    if thread::available_parallelism().is_ok_and(|count| count.get() == 1) { 0 } else { most }
}

/// The call is open, and its thread isn't asleep.
const OPEN: u32 = 0;
/// The call is open, and its thread is asleep, or about to be.
const ASLEEP: u32 = 1;
/// The call has completed.
const ENDED: u32 = 2;

/// The place where a port's thread waits, in two cache lines. Its owner is the port. A thread with the
/// kernel's lock completes its call.
#[repr(C, align(64))]
pub(crate) struct Place {
    /// The result of the call.
    mark: UnsafeCell<Mark>,
    /// The number of bytes that were copied when the thread's message was received.
    msglen: UnsafeCell<usize>,
    /// The word that the owner looks at. The second cache line begins here.
    word: AtomicU32,
    /// The thread to wake.
    sleeper: UnsafeCell<Option<Thread>>,
    /// The buffer of the call.
    lent: UnsafeCell<Option<Lent>>,
}

const _: () = assert!(size_of::<Place>() == 128 && offset_of!(Place, word) == 64);

// SAFETY: by the safety conditions of the functions below, each field is used under these rules.
// - `msglen` is used only under the kernel's lock.
// - `mark` is written by `end`, before `end` releases ENDED. Each `open` has one `end`. The owner reads
//   `mark` after it has acquired ENDED, and opens its next call after that.
// - `lent` is written by the owner, before it takes the lock under which its call opens, and after its calls
//   that didn't wait. A thread with the lock takes the buffer of an open call.
// - `sleeper` is written by the owner, before it releases ASLEEP. `end` reads it after `end` has acquired
//   ASLEEP, under the kernel's lock. The owner writes another sleeper in its next call at the earliest, and
//   for that call it has taken the lock.
unsafe impl Sync for Place {}

impl Place {
    pub(crate) fn new() -> Place {
        Place {
            mark: Mark::Done.into(),
            msglen: 0.into(),
            word: AtomicU32::new(ENDED),
            sleeper: None.into(),
            lent: None.into(),
        }
    }

    /// Opens a call of the owner. The owner takes the kernel's lock after this, so the call's `end` can't
    /// come before.
    ///
    /// # Safety
    /// The caller is the owner, and has no open call.
    pub(crate) unsafe fn open(&self, lent: Lent) {
        // SAFETY: nothing uses the buffer of a call that isn't open.
        unsafe { *self.lent.get() = Some(lent) };
        self.word.store(OPEN, Ordering::Relaxed);
    }

    /// Takes the buffer of the call: of an open call, or of a call of the owner that didn't wait.
    ///
    /// # Safety
    /// The caller has the kernel's lock, or is the owner and has no open call.
    pub(crate) unsafe fn lent(&self) -> Option<Lent> {
        // SAFETY: the owner doesn't use the field while its call is open.
        unsafe { (*self.lent.get()).take() }
    }

    /// Returns the number of bytes that were copied when the thread's message was received.
    ///
    /// # Safety
    /// The caller has the kernel's lock.
    pub(crate) unsafe fn msglen(&self) -> usize {
        // SAFETY: the field is used only under the lock.
        unsafe { *self.msglen.get() }
    }

    /// Sets the number of bytes that were copied when the thread's message was received.
    ///
    /// # Safety
    /// The caller has the kernel's lock.
    pub(crate) unsafe fn set_msglen(&self, length: usize) {
        // SAFETY: the field is used only under the lock.
        unsafe { *self.msglen.get() = length };
    }

    pub(crate) fn is_ended(&self) -> bool {
        self.word.load(Ordering::Acquire) == ENDED
    }

    /// Completes the owner's call with this result, and returns the thread to wake, if it sleeps.
    ///
    /// # Safety
    /// - The caller has the kernel's lock.
    /// - The call is open, and this is the only `end` for its `open`.
    #[must_use]
    pub(crate) unsafe fn end(&self, mark: &Mark) -> Option<Thread> {
        // SAFETY:
        // - The call is open, so its owner doesn't read the field.
        // - No other thread completes the call.
        unsafe { *self.mark.get() = *mark };
        let is_asleep = self.word.swap(ENDED, Ordering::AcqRel) == ASLEEP;
        // SAFETY:
        // - The owner wrote the field before it fell asleep.
        // - The owner doesn't write it again before this thread releases the lock.
        is_asleep.then(|| unsafe { (*self.sleeper.get()).clone() }).flatten()
    }

    /// Returns the result of the call.
    ///
    /// # Safety
    /// - The caller is the owner.
    /// - `is_ended` returned true, and no call was opened since.
    pub(crate) unsafe fn take(&self) -> Mark {
        // SAFETY: the call has completed, and the next isn't open.
        unsafe { *self.mark.get() }
    }

    /// Looks at the word up to `looks` times, and returns whether the call has completed. Doubles `looks` if
    /// it has, up to `LOOKS`, and halves it if not, down to a fifth of `LOOKS`. A smaller number isn't
    /// halved, and 0 stays 0.
    pub(crate) fn look(&self, looks: &mut u32) -> bool {
        for _ in 0..*looks {
            if self.is_ended() {
                *looks = (2 * *looks + 1).min(LOOKS);
                return true;
            }
            hint::spin_loop();
        }
        *looks = (*looks / 2).max(LOOKS / 5).min(*looks);
        self.is_ended()
    }

    /// Sleeps until the call has completed, and returns true; or until the time `end`, and returns false.
    ///
    /// # Safety
    /// - The caller is the owner.
    /// - The caller has opened a call, and hasn't seen that it completed.
    pub(crate) unsafe fn sleep(&self, end: Option<Instant>) -> bool {
        if self.word.load(Ordering::Relaxed) == OPEN {
            // SAFETY: the word isn't ASLEEP, so nothing else uses the sleeper.
            unsafe { *self.sleeper.get() = Some(thread::current()) };
            if self.word.compare_exchange(OPEN, ASLEEP, Ordering::Release, Ordering::Acquire).is_err() {
                return true;
            }
        }
        while !self.is_ended() {
            match end.map(|end| end.saturating_duration_since(Instant::now())) {
                None => thread::park(),
                Some(left) if left.is_zero() => return false,
                Some(left) => thread::park_timeout(left),
            }
        }
        true
    }
}
