//! The kernel under its lock. It delivers the completions of an event to their threads.

use crate::errors::{Errno, OpenError};
use crate::ids::ReceiveId;
use crate::kernel::{Call, Ending, Library, Mark, ROWS, RawEnding, RawRequest, Thread, kind};
#[cfg(feature = "record")]
use crate::record::Record;
use crate::sleeping::Place;
use std::mem::swap;
use std::ops::Range;
use std::process::abort;
use std::slice::from_raw_parts_mut;
use std::sync::{Mutex, MutexGuard, TryLockError};
use std::{hint, thread};

/// The number of tries for the lock before a thread sleeps. ThreadSanitizer sees only the part of a lock that
/// is inlined here, so under ThreadSanitizer no thread sleeps for a lock.
const LOCK_LOOKS: u32 = if cfg!(tsan) { u32::MAX } else { 100 };
/// The number of pauses between two tries for the lock.
const LOCK_PAUSES: u32 = 8;

/// The kernel gets, and copies, at most this many bytes of a receive's buffer. The rest of a longer message
/// is read by a second call, if the buffer has room for it.
pub(crate) const FRONT: usize = 1024;

/// The number of bytes of a place's own room, for the buffers of the completions that its calls cause.
const NEAR: usize = 2 * FRONT;
/// The kinds of calls that may complete the calls of more than one other thread.
const ENDS_MANY: [u8; 3] = [kind::CHANNEL_DESTROY, kind::SHUTDOWN, kind::CONNECT_DETACH];
/// An index that no place has.
const NONE: u8 = u8::MAX;

/// Two rows, in cache lines of their own.
#[repr(C, align(64))]
#[derive(Clone, Copy, Default)]
struct Rows([RawEnding; 2]);

const _: () = assert!(size_of::<Rows>() == 2 * size_of::<RawEnding>());

/// The buffer of a call, which its thread lends until the call has completed.
#[derive(Clone, Copy)]
pub(crate) struct Lent(*mut [u8]);

// SAFETY: until the call has completed, only the thread with the kernel's lock uses the buffer. The caller of
// `of` promises this.
unsafe impl Send for Lent {}

impl Lent {
    /// Lends a buffer.
    ///
    /// # Safety
    /// - The buffer lives until its call has completed.
    /// - Nothing else uses the buffer until then.
    ///
    /// If the lock is poisoned before that, the call never completes.
    pub(crate) unsafe fn of(buffer: *mut [u8]) -> Lent {
        Lent(buffer)
    }

    pub(crate) fn len(self) -> usize {
        self.0.len()
    }

    /// Returns the content of the buffer.
    ///
    /// # Safety
    /// - The call that lent the buffer hasn't completed.
    /// - The caller has the kernel's lock, or it is the thread that makes the call and hasn't opened it yet.
    /// - The slice isn't used after its call has completed, and not after a `fill`.
    pub(crate) unsafe fn bytes<'a>(self) -> &'a [u8] {
        // SAFETY:
        // - The buffer lives until its call completes.
        // - Nothing writes the buffer while the slice is used.
        unsafe { &*self.0 }
    }

    /// Copies bytes of the kernel into the buffer, from `start` on.
    ///
    /// # Safety
    /// - The call that lent the buffer hasn't completed.
    /// - The caller has the kernel's lock.
    /// - No slice of the buffer that was made before is used after this.
    unsafe fn fill(self, start: usize, bytes: &[u8]) {
        // SAFETY:
        // - The buffer lives until its call completes.
        // - Nothing else uses the buffer.
        let buffer = unsafe { &mut *self.0 };
        buffer[start..start + bytes.len()].copy_from_slice(bytes);
    }
}

/// The state that only the thread with the lock uses. It is in other cache lines than the lock's word. Its
/// first cache line is only read.
#[repr(C, align(64))]
pub(crate) struct Locked {
    library: Library,
    /// Each place has two rows of its own, at which the rows of its calls begin. Only calls with more than
    /// two completions write the rows after these two.
    rows: Box<[Rows]>,
    /// The own room of each place.
    near: Box<[[u8; NEAR]]>,
    /// Room for the buffers of all open calls.
    bytes: Box<[u8]>,
    /// The greatest number of bytes that the kernel gets of a buffer, over all places.
    most: usize,
    /// The sum of the lengths of the longest buffer of each place.
    promised: usize,
}

type Sleeper = thread::Thread;

/// The threads to wake after the lock is released. Usually there is at most one, and then nothing is
/// allocated.
#[derive(Default)]
pub(crate) struct Sleepers {
    first: Option<Sleeper>,
    more: Vec<Sleeper>,
}

impl Sleepers {
    fn add(&mut self, sleeper: Option<Sleeper>) {
        if self.first.is_none() { self.first = sleeper } else { self.more.extend(sleeper) }
    }

    pub(crate) fn iter(&self) -> impl Iterator<Item = &Sleeper> {
        self.first.iter().chain(&self.more)
    }
}

/// A kernel with the places of its ports.
pub(crate) struct Shared {
    lock: Mutex<Locked>,
    pub(crate) places: Box<[Place]>,
    /// The index of each thread's place, by the thread's number. A clock has no place.
    place_of: [u8; 256],
    /// The number of each process's clock, by the process's number. A clock is the thread that unblocks calls
    /// whose timeout has expired.
    pub(crate) clock_of: [u8; 256],
    #[cfg(feature = "record")]
    pub(crate) record: Record,
}

impl Shared {
    pub(crate) fn new(threads: &[Thread]) -> Result<Shared, OpenError> {
        let mut roster = threads.to_vec();
        let (mut place_of, mut clock_of) = ([NONE; 256], [0; 256]);
        let mut free = (0..=u8::MAX).rev().filter(|number| threads.iter().all(|thread| thread.thread != *number));
        for (at, thread) in threads.iter().enumerate() {
            place_of[usize::from(thread.thread)] = at as u8;
            if threads[..at].iter().all(|earlier| earlier.process != thread.process) {
                let clock = free.next().ok_or(OpenError::Refused(Errno::Again))?;
                clock_of[usize::from(thread.process)] = clock;
                roster.push(Thread::new(clock, thread.process, 1));
            }
        }
        let locked = Locked {
            library: Library::new(&roster)?,
            rows: vec![Rows::default(); threads.len() + ROWS / 2].into(),
            near: vec![[0; NEAR]; threads.len()].into(),
            bytes: Box::new([]),
            most: 0,
            promised: 0,
        };
        Ok(Shared {
            lock: Mutex::new(locked),
            places: threads.iter().map(|_| Place::new()).collect(),
            place_of,
            clock_of,
            #[cfg(feature = "record")]
            record: Record::new(&roster, threads.len()),
        })
    }

    /// Takes the lock. If a thread panicked with the lock, the program is aborted. That thread's call would
    /// never complete, nor would the calls that it was about to complete, and their buffers stay lent.
    pub(crate) fn lock(&self) -> MutexGuard<'_, Locked> {
        for _ in 0..LOCK_LOOKS {
            match self.lock.try_lock() {
                Err(TryLockError::WouldBlock) if cfg!(tsan) => thread::yield_now(),
                Err(TryLockError::WouldBlock) => (0..LOCK_PAUSES).for_each(|_| hint::spin_loop()),
                locked => return locked.unwrap_or_else(|_| abort()),
            }
        }
        self.lock.lock().unwrap_or_else(|_| abort())
    }

    /// Makes room for a buffer of a place that is `more` bytes longer than the place's longest buffer before.
    /// The kernel gets at most `seen` bytes of it. Memory is allocated and freed without the lock.
    pub(crate) fn promise(&self, more: usize, seen: usize) {
        let mut locked = self.lock();
        locked.promised += more;
        let whole = locked.promised;
        drop(locked);
        let mut other = vec![0; whole].into_boxed_slice();
        let mut locked = self.lock();
        locked.most = locked.most.max(seen);
        if locked.bytes.len() < whole {
            swap(&mut locked.bytes, &mut other);
        }
        drop(locked);
    }
}

impl Locked {
    /// Makes a call from a place, with a lent buffer, and delivers the completions to their threads. Returns
    /// the threads to wake. If the call completed in its own event, `own` becomes its result.
    ///
    /// # Safety
    /// The room is empty, or a part of the buffer that is lent. It isn't a slice, because this function fills
    /// the buffer.
    pub(crate) unsafe fn make(
        &mut self,
        shared: &Shared,
        place: usize,
        (request, sent, room): (&RawRequest, &[u8], *const [u8]),
        lent: Lent,
        own: &mut Option<Mark>,
    ) -> Sleepers {
        let (mut asleep, mut message) = (Sleepers::default(), None);
        let mut end = |at: Option<usize>, mark: &Mark| match at {
            None => *own = Some(*mark),
            // SAFETY:
            // - The caller has the lock.
            // - The call is open: its lent buffer was taken from it, and only once.
            Some(at) => asleep.add(unsafe { shared.places[at].end(mark) }),
        };
        // A sender is never a clock.
        let sender = |thread| &shared.places[usize::from(shared.place_of[usize::from(thread)])];
        // SAFETY: the call hasn't completed, and its buffer isn't filled yet.
        #[cfg(feature = "record")]
        shared.record.call(*request, sent, room.len(), unsafe { lent.bytes() });
        let is_near = self.most <= NEAR / 2 && !ENDS_MANY.contains(&request.kind);
        let bytes = if is_near { &mut self.near[place][..] } else { &mut self.bytes };
        let rows = rows_of(&mut self.rows[place..place + ROWS / 2]);
        // SAFETY: the buffer is lent, and nothing else uses it.
        let endings = match unsafe { self.library.make((request, sent, room), rows, bytes) } {
            Ok(endings) => endings,
            Err(errno) => {
                *own = Some(Mark::Failed(errno));
                return asleep;
            }
        };
        for row in endings.rows() {
            let at = usize::from(shared.place_of[usize::from(row.thread())]);
            let at = Some(at).filter(|_| at != usize::from(NONE) && row.thread() != request.thread);
            // SAFETY: this thread has the lock.
            let lent = at.map_or(lent, |at| unsafe { shared.places[at].lent() }.expect("a call that ends was open"));
            // SAFETY:
            // - The call completes below, under the lock.
            // - The kernel has already read the call's room.
            unsafe { lent.fill(0, endings.buffer(row)) };
            let mut mark = row.mark();
            match &mut mark {
                // At most one message is received in an event.
                Mark::Message { rcvid, info } if info.msglen < info.srcmsglen.min(lent.0.len()) => {
                    message = Some((row.thread(), at, lent, *rcvid, *info));
                    continue;
                }
                // SAFETY: this thread has the lock.
                Mark::Message { info, .. } => unsafe { sender(info.thread).set_msglen(info.msglen) },
                // SAFETY: this thread has the lock.
                Mark::Info(info) => info.msglen = unsafe { sender(info.thread).msglen() },
                _ => {}
            }
            end(at, &mark);
        }
        if let Some((receiver, at, lent, rcvid, mut info)) = message {
            let rest = info.msglen..info.srcmsglen.min(lent.0.len());
            // SAFETY: the receiver's call completes below, under the lock, and the buffer isn't filled while
            // the slice is used.
            #[cfg(feature = "record")]
            shared.record.read_on(receiver, rcvid, unsafe { &lent.bytes()[rest.clone()] }, rest.start);
            // SAFETY: the receiver's call completes below, under the lock, and no slice of the buffer is used.
            info.msglen += unsafe { self.read_on(receiver, rcvid, lent, rest) };
            // SAFETY: this thread has the lock.
            unsafe { sender(info.thread).set_msglen(info.msglen) };
            end(at, &Mark::Message { rcvid, info });
        }
        asleep
    }

    /// Reads the rest of a message into the part `rest` of the buffer, by a call of the receiver. Returns the
    /// number of bytes read, which is 0 if the kernel is out of memory.
    ///
    /// # Safety
    /// - The receiver's call, which lent the buffer, hasn't completed.
    /// - No slice of the buffer that was made before is used after this.
    #[cold]
    unsafe fn read_on(&mut self, receiver: u8, rcvid: ReceiveId, lent: Lent, rest: Range<usize>) -> usize {
        let start = rest.start;
        // SAFETY: the slice is used only until the kernel has read it, and the buffer is filled after that.
        let read = Call::Read { rcvid, offset: start, buffer: unsafe { &lent.bytes()[rest] } };
        let (request, sent, room) = read.raw(receiver);
        let rows = rows_of(&mut self.rows[..ROWS / 2]);
        // SAFETY: the room is a slice, and nothing writes it before the call returns.
        let Ok(endings) = (unsafe { self.library.make((&request, sent, room), rows, &mut self.bytes) }) else {
            return 0;
        };
        let Some(Ending { mark: Mark::Count(count), buffer, .. }) = endings.iter().next() else { return 0 };
        // SAFETY: the kernel has read the room.
        unsafe { lent.fill(start, buffer) };
        count
    }
}

/// Returns pairs of rows as rows.
fn rows_of(pairs: &mut [Rows]) -> &mut [RawEnding] {
    // SAFETY: a pair is two rows, and nothing else.
    unsafe { from_raw_parts_mut(pairs.as_mut_ptr().cast(), 2 * pairs.len()) }
}
