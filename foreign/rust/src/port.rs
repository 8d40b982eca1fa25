//! The port of a thread, by which it calls the kernel and waits for the completions of its calls.

use crate::daemon::Link;
use crate::errors::{CallError, Errno, OpenError, Result, outcome};
use crate::ids::ChannelId;
use crate::kernel::{Call, Mark, Thread};
use crate::shared::{Lent, Shared};
use crate::sleeping::{LOOKS, first_looks};
use crate::wire::{OP_FIND, OP_NAME, OP_UNNAME};
use std::io;
use std::mem::forget;
use std::path::Path;
use std::process::abort;
use std::sync::Arc;
use std::thread;
use std::time::{Duration, Instant};

/// The time after which a timeout is tried again if the kernel refused it. The kernel refuses a timeout if a
/// limit is reached or there is no memory.
const AGAIN: Duration = Duration::from_millis(1);

/// A thread's access to a kernel. Its calls sleep while they wait.
///
/// A port may move to another thread of the program between two calls. If a thread panics while it has a
/// port, the kernel is shut down, so that no other thread waits for it forever. If a port is dropped without
/// a panic, its thread makes no more calls, and a client that waits for the thread's reply stays blocked.
pub struct Port {
    side: Side,
    thread: Thread,
    timeout: Option<Duration>,
}

/// The kernel of a port: a kernel of this program, or a daemon's.
enum Side {
    Own(Place),
    Daemon(Link),
}

/// A thread's place in a kernel of this program.
pub(crate) struct Place {
    pub(crate) shared: Arc<Shared>,
    at: usize,
    thread: Thread,
    looks: u32,
    /// The length of its longest buffer until now.
    longest: usize,
    /// The greatest number of bytes that the kernel got of one of its buffers until now.
    seen: usize,
}

/// Opens a kernel of these threads, and returns a port for each, in the order given.
///
/// Fails with `Inval` if a thread has the priority 0 or its number comes twice, and with `Again` if the
/// threads and the processes are more than 64 together. For the timeouts of each process the kernel has one
/// more thread, which gets the greatest free number up to 255.
pub fn open(threads: &[Thread]) -> std::result::Result<Vec<Port>, OpenError> {
    let shared = Arc::new(Shared::new(threads)?);
    let ports = threads.iter().enumerate();
    let looks = first_looks(LOOKS);
    let place = |at, thread| Place { shared: shared.clone(), at, thread, looks, longest: 0, seen: 0 };
    Ok(ports.map(|(at, &thread)| Port { side: Side::Own(place(at, thread)), thread, timeout: None }).collect())
}

/// Opens a kernel of these threads, like [`open`], and returns an array with a port for each.
///
/// ```
/// use balsaeuchre::{Thread, open_array};
///
/// let [mut server, mut client] = open_array([Thread::new(1, 1, 10), Thread::new(2, 2, 20)])?;
/// # Ok::<(), balsaeuchre::OpenError>(())
/// ```
pub fn open_array<const N: usize>(threads: [Thread; N]) -> std::result::Result<[Port; N], OpenError> {
    let Ok(ports) = open(&threads)?.try_into() else { unreachable!("a port for each thread") };
    Ok(ports)
}

impl Port {
    /// Returns the thread of the port, with its initial priority.
    #[must_use]
    pub fn thread(&self) -> Thread {
        self.thread
    }

    /// Returns the number of the port's process, as other threads get it in
    /// [`Info::process`](crate::Info::process) and [`What::Disconnect`](crate::What::Disconnect).
    #[must_use]
    pub fn process(&self) -> u32 {
        match &self.side {
            Side::Own(place) => place.thread.process.into(),
            Side::Daemon(link) => link.process(),
        }
    }

    /// Sets the timeout of the next call that can block: `msg_send`, `msg_receive` or `msg_receive_pulse`
    /// (`TimerTimeout`). It begins with the call. When it expires, the call is unblocked, and fails with
    /// [`CallError::TimedOut`]. If the call's message is held on a channel with the flag `UNBLOCK`, the
    /// server gets a pulse instead, and the call stays blocked until the reply.
    ///
    /// ```
    /// # use balsaeuchre::{CallError, ChannelFlags, Thread, open_array};
    /// # use std::time::Duration;
    /// # fn main() -> Result<(), Box<dyn std::error::Error>> {
    /// # let [mut server] = open_array([Thread::new(1, 1, 10)])?;
    /// let channel = server.channel_create(ChannelFlags::NONE)?;
    /// let received = server.timeout(Duration::from_millis(5)).msg_receive_pulse(channel);
    /// assert_eq!(received, Err(CallError::TimedOut));
    /// # Ok(())
    /// # }
    /// ```
    pub fn timeout(&mut self, time: Duration) -> &mut Port {
        self.timeout = Some(time);
        self
    }

    /// Joins the kernel of the `balsaeuchred` whose socket has this path, as a further thread of this
    /// program, with the priority 10.
    ///
    /// Servers and clients may then be separate programs, in Rust or C. A server gives its channel a name by
    /// [`name_attach`](Port::name_attach), and a client finds it by [`name_find`](Port::name_find). A
    /// channel's number has the pid of its program in its upper half.
    ///
    /// Such a port differs from the ports of [`open`]:
    ///
    /// - [`process`](Port::process) is the daemon's number of this program, and [`Thread::process`] is 0.
    /// - [`sched_set`](Port::sched_set), [`unblock`](Port::unblock) and [`state`](Port::state) know only the
    ///   threads of this program.
    /// - [`shutdown`](Port::shutdown) is refused with `Inval`, and so is a message, a reply or a reply buffer
    ///   of over 1 MiB.
    /// - A port that is dropped leaves the kernel. After the last port is dropped, the program has ended for
    ///   all others, which then don't wait for it.
    /// - A forked child is another program. Calls by its parent's ports are refused with `Down`, and it has
    ///   to connect itself.
    ///
    /// Fails with the error of the host if there is no daemon or it refuses this program's user, and with
    /// `EAGAIN` if all places of programs or threads are taken. The daemon's user has to be root, the
    /// program's own user, or the user that the variable `BALSAEUCHRE_SYSTEM_USER` names, by name or number.
    /// Otherwise it fails with `PermissionDenied`.
    pub fn connect(path: impl AsRef<Path>) -> io::Result<Port> {
        let link = Link::open(path.as_ref())?;
        let thread = Thread::new(link.tid(), 0, 10);
        Ok(Port { side: Side::Daemon(link), thread, timeout: None })
    }

    fn link(&mut self) -> Result<&mut Link> {
        match &mut self.side {
            Side::Daemon(link) => Ok(link),
            Side::Own(_) => Err(CallError::Refused(Errno::Inval)),
        }
    }

    /// Gives a channel of this program a name of at most 255 bytes in the daemon's kernel (`name_attach`).
    /// Refused with `Busy` if the name is taken, and `Inval` if the channel isn't open, is another program's
    /// or already has a name, or if the kernel isn't a daemon's.
    pub fn name_attach(&mut self, chid: ChannelId, name: &str) -> Result<()> {
        self.link()?.ask_name(OP_NAME, chid, name).map(|_| ())
    }

    /// Removes the name of a channel of this program (`name_detach`). Refused with `Inval` if the channel
    /// isn't open, is another program's or has no name, or if the kernel isn't a daemon's.
    pub fn name_detach(&mut self, chid: ChannelId) -> Result<()> {
        self.link()?.ask_name(OP_UNNAME, chid, "").map(|_| ())
    }

    /// Returns the channel with this name, of any program, for `connect_attach`. Unlike `name_open` in C it
    /// sends the server no message. Refused with `Srch` if no channel has the name, and `Inval` if the kernel
    /// isn't a daemon's.
    pub fn name_find(&mut self, name: &str) -> Result<ChannelId> {
        self.link()?.ask_name(OP_FIND, ChannelId(0), name)
    }

    /// Makes a call that has no buffer and never waits.
    pub(crate) fn call(&mut self, call: Call<'_>) -> Result<Mark> {
        self.make(false, &mut [], |_| call)
    }

    /// Makes a call with its buffer, and waits for its completion. A call that can block uses up the timeout.
    pub(crate) fn make<'a>(
        &mut self,
        can_block: bool,
        buffer: &'a mut [u8],
        call: impl FnOnce(&'a [u8]) -> Call<'a>,
    ) -> Result<Mark> {
        let time = if can_block { self.timeout.take() } else { None };
        match &mut self.side {
            Side::Own(place) => place.make(time, buffer, call),
            Side::Daemon(link) => link.make(time, buffer, call),
        }
    }

    #[cfg(feature = "record")]
    pub(crate) fn shared(&self) -> &Shared {
        match &self.side {
            Side::Own(place) => &place.shared,
            Side::Daemon(_) => panic!("a daemon makes its own record"),
        }
    }
}

impl Place {
    /// Makes a call with its buffer, and waits for its completion.
    fn make<'a>(
        &mut self,
        time: Option<Duration>,
        buffer: &'a mut [u8],
        call: impl FnOnce(&'a [u8]) -> Call<'a>,
    ) -> Result<Mark> {
        let end = time.and_then(|time| Instant::now().checked_add(time));
        // SAFETY:
        // - This function borrows the buffer, and doesn't use it itself before the call has completed.
        // - Before that it doesn't return.
        // - Before that it doesn't unwind: a panic with the lock poisons the lock, and `wait` aborts.
        let lent = unsafe { Lent::of(buffer) };
        // SAFETY:
        // - Once the call is made, its slices of the buffer are only pointers.
        // - Nothing fills the buffer before that.
        let (request, sent, room) = call(unsafe { lent.bytes() }).raw(self.thread.thread);
        let room: *const [u8] = room;
        self.make_room(lent.len(), room.len());
        // SAFETY: this port is the place's owner, and has no open call.
        unsafe { self.shared.places[self.at].open(lent) };
        let (mut locked, mut own) = (self.shared.lock(), None);
        // SAFETY: the room is a part of the buffer that is lent.
        let asleep = unsafe { locked.make(&self.shared, self.at, (&request, sent, room), lent, &mut own) };
        drop(locked);
        if own.is_some() {
            // SAFETY: this port is the place's owner, and its call isn't open.
            unsafe { self.shared.places[self.at].lent() };
        }
        asleep.iter().for_each(thread::Thread::unpark);
        let result = own.map_or_else(|| self.wait(end), |mark| outcome(mark, false));
        #[cfg(feature = "record")]
        self.shared.record.end(self.at, result, buffer);
        result
    }

    /// Makes room for a buffer of `length` bytes. The kernel gets its first `seen` bytes.
    fn make_room(&mut self, length: usize, seen: usize) {
        if length > self.longest || seen > self.seen {
            self.shared.promise(length.saturating_sub(self.longest), seen);
            self.longest = self.longest.max(length);
            self.seen = self.seen.max(seen);
        }
    }

    /// Waits for the completion of the open call. If this function panics, the program is aborted, since the
    /// call's buffer is lent.
    fn wait(&mut self, mut end: Option<Instant>) -> Result<Mark> {
        let open = Open;
        let place = &self.shared.places[self.at];
        let mut is_late = false;
        if !place.look(&mut self.looks) {
            // SAFETY: this port is the place's owner, and `make` opened its call.
            while !unsafe { place.sleep(end) } {
                (is_late, end) = self.time_out();
            }
        }
        forget(open);
        // SAFETY: this port is the place's owner, and its call has completed.
        match outcome(unsafe { place.take() }, true) {
            Err(CallError::Cancelled(Errno::Intr)) if is_late => Err(CallError::TimedOut),
            result => result,
        }
    }

    /// Unblocks this port's thread, by a call of its process's clock. Returns whether the clock's call
    /// completed the thread's call, and the time to try again if the kernel refused the clock's call.
    fn time_out(&self) -> (bool, Option<Instant>) {
        let (mut locked, mut own) = (self.shared.lock(), None);
        let place = &self.shared.places[self.at];
        if place.is_ended() {
            return (false, None);
        }
        let clock = self.shared.clock_of[usize::from(self.thread.process)];
        let (request, sent, room) = Call::Unblock { thread: self.thread.thread }.raw(clock);
        // SAFETY: the buffer has no bytes.
        let none = unsafe { Lent::of(&mut []) };
        // SAFETY: the room is empty.
        let asleep = unsafe { locked.make(&self.shared, self.at, (&request, sent, room), none, &mut own) };
        let is_late = place.is_ended();
        drop(locked);
        asleep.iter().for_each(thread::Thread::unpark);
        (is_late, if own == Some(Mark::Done) { None } else { Some(Instant::now() + AGAIN) })
    }
}

/// A blocked call. It must not be dropped before the call has completed.
struct Open;

impl Drop for Open {
    fn drop(&mut self) {
        abort()
    }
}

/// A thread that panics shuts down the kernel of its program, so that no other thread waits for it forever. A
/// daemon refuses the shutdown.
impl Drop for Port {
    fn drop(&mut self) {
        if thread::panicking() {
            let _ = self.shutdown();
        }
    }
}

#[cfg(test)]
#[path = "../tests/unit/port.rs"]
mod test;
