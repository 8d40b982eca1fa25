//! Ports in the kernel of a `balsaeuchred`: each has a socket and a box of shared memory. The declarations
//! repeat `foreign/daemon/wire.h`, and hold for Linux on x86-64.

use crate::errors::{CallError, Errno, Result};
use crate::host::{self, Packet, Part, Rights, connect_to, uninterrupted};
use crate::ids::{ChannelId, ConnectionId, ReceiveId};
use crate::kernel::{Call, Mark, RawRequest, kind};
use crate::results::{Info, Pulse, State, ThreadState, What};
use crate::sleeping::{LOOKS, first_looks};
use crate::wire::{self, Answer, Ask, MOST, MsgInfo, RawPulse, Shared};
use std::ffi::c_int;
use std::fs::File;
use std::io::{self, Write};
use std::mem::{offset_of, zeroed};
use std::ops::Deref;
use std::os::fd::{AsRawFd, FromRawFd, OwnedFd};
use std::path::{Path, PathBuf, absolute};
use std::sync::atomic::{AtomicU32, Ordering};
use std::sync::{Arc, Mutex, MutexGuard, TryLockError, Weak};
use std::time::Duration;
use std::{hint, process, ptr, thread};

/// Returns whether the error means that the other end of a socket is closed. That end may have sent a packet
/// before.
fn is_closed(error: &io::Error) -> bool {
    matches!(error.kind(), io::ErrorKind::BrokenPipe | io::ErrorKind::ConnectionReset)
}

/// Waits for an answer, and for the two files that come with it, if there are any.
fn receive(socket: &OwnedFd) -> io::Result<(Answer, Option<[c_int; 2]>)> {
    let (mut answer, mut rights) = (Answer::default(), Rights::default());
    let mut part = Part { iov_base: ptr::from_mut(&mut answer).cast(), iov_len: size_of::<Answer>() };
    // SAFETY: a packet of zeros is valid.
    let mut packet = Packet { msg_iov: &mut part, msg_iovlen: 1, ..unsafe { zeroed() } };
    packet.msg_control = ptr::from_mut(&mut rights).cast();
    packet.msg_controllen = size_of::<Rights>();
    // SAFETY:
    // - The packet has the lengths of its parts.
    // - Any bytes are a valid answer, and valid numbers.
    let mut once =
        || uninterrupted(|| unsafe { host::recvmsg(socket.as_raw_fd(), &mut packet, host::MSG_CMSG_CLOEXEC) });
    // The host reports once that the other end was closed, and after that returns the packets that were sent
    // before.
    let came = once().or_else(|error| if is_closed(&error) { once() } else { Err(error) })?;
    if came < size_of::<Answer>() {
        return Err(io::ErrorKind::ConnectionAborted.into());
    }
    if answer.error != 0 {
        return Err(io::Error::from_raw_os_error(answer.error));
    }
    Ok((answer, rights.files()))
}

/// Sends an ask as a packet, and waits for the answer. A daemon that refuses a socket sends an answer, maybe
/// before the ask, and closes the socket.
fn exchange(socket: &OwnedFd, ask: &Ask) -> io::Result<(Answer, Option<[c_int; 2]>)> {
    let bytes = ptr::from_ref(ask).cast();
    // SAFETY: the pointer is an ask's, and is passed with the ask's length.
    let send = || unsafe { host::send(socket.as_raw_fd(), bytes, size_of::<Ask>(), host::MSG_NOSIGNAL) };
    match uninterrupted(send) {
        Err(error) if !is_closed(&error) => Err(error),
        _ => receive(socket),
    }
}

/// The variable that names another trusted user of a daemon. Root and the program's own user are always
/// trusted.
const USER_VARIABLE: &str = "BALSAEUCHRE_SYSTEM_USER";

/// Returns whether a program of the user `own` trusts a daemon of this user. `named` is the user that the
/// program's environment names, if it names one.
fn is_trusted(user: u32, own: u32, named: Option<u32>) -> bool {
    user == 0 || user == own || Some(user) == named
}

/// Connects a socket to the daemon of a path. Another user may have taken the path first, so the daemon's
/// user has to be trusted.
fn connect_to_daemon(path: &Path) -> io::Result<OwnedFd> {
    let socket = connect_to(path)?;
    let (user, own) = (host::user_of(&socket)?, host::own_user());
    let named = host::variable(USER_VARIABLE).and_then(|name| host::user_named(&name));
    if is_trusted(user, own, named) {
        return Ok(socket);
    }
    let told = format!(
        "the balsaeuchred at {} is of user {user}: expected root's (0) or this user's ({own}). \
         {USER_VARIABLE}={user} takes it",
        path.display()
    );
    Err(io::Error::new(io::ErrorKind::PermissionDenied, told))
}

/// The data that all ports of this program in one daemon share. For the daemon the program ends when this
/// socket is closed.
struct Program {
    path: PathBuf,
    socket: OwnedFd,
    pid: u32,
    scoid: u32,
    taken: Mutex<[bool; 256]>,
}

static PROGRAMS: Mutex<Vec<Weak<Program>>> = Mutex::new(Vec::new());

/// Takes a lock. ThreadSanitizer sees only the part of a lock that is inlined here, so under ThreadSanitizer
/// no thread sleeps for a lock.
fn lock<T>(mutex: &Mutex<T>) -> MutexGuard<'_, T> {
    while cfg!(tsan) {
        match mutex.try_lock() {
            Ok(locked) => return locked,
            Err(TryLockError::Poisoned(poisoned)) => return poisoned.into_inner(),
            Err(TryLockError::WouldBlock) => thread::yield_now(),
        }
    }
    mutex.lock().unwrap_or_else(|poisoned| poisoned.into_inner())
}

/// Shuts down a socket: for the daemon it ends, even while a forked child still has it.
fn end(socket: &OwnedFd) {
    // SAFETY: the call takes only numbers.
    unsafe { host::shutdown(socket.as_raw_fd(), host::SHUT_RDWR) };
}

/// Returns the program in the daemon of this path. Opens the program's socket if it isn't open yet.
fn program(path: &Path) -> io::Result<Arc<Program>> {
    let mut programs = lock(&PROGRAMS);
    programs.retain(|program| program.strong_count() > 0);
    let is_it = |program: &Arc<Program>| program.is_own() && program.path == path;
    if let Some(program) = programs.iter().filter_map(Weak::upgrade).find(is_it) {
        return Ok(program);
    }
    let socket = connect_to_daemon(path)?;
    let (answer, _) = exchange(&socket, &Ask { op: wire::OP_PROCESS, number: wire::VERSION, ..Ask::default() })?;
    let (path, taken) = (path.to_owned(), Mutex::new([false; 256]));
    let program = Arc::new(Program { path, socket, pid: process::id(), scoid: answer.result as u32, taken });
    programs.push(Arc::downgrade(&program));
    Ok(program)
}

impl Program {
    /// Returns whether this is the program that opened the socket. A forked child is another program.
    fn is_own(&self) -> bool {
        self.pid == process::id()
    }
}

impl Drop for Program {
    fn drop(&mut self) {
        if self.is_own() {
            end(&self.socket);
        }
    }
}

/// A port's use of its program. The last use ends the program's socket. It does this under the lock of
/// `PROGRAMS`, while no thread opens another socket, since the daemon refuses a second one.
struct Use(Option<Arc<Program>>);

impl Deref for Use {
    type Target = Program;

    fn deref(&self) -> &Program {
        self.0.as_ref().expect("only drop empties it")
    }
}

impl Drop for Use {
    fn drop(&mut self) {
        let _programs = lock(&PROGRAMS);
        self.0 = None;
    }
}

/// Maps the box of a thread. A forked child doesn't get the mapping.
fn map(file: &OwnedFd) -> io::Result<*mut Shared> {
    const ACCESS: c_int = host::PROT_READ | host::PROT_WRITE;
    let length = size_of::<Shared>();
    // SAFETY: the call makes a new mapping, which is shared, and is read and written.
    let at = unsafe { host::mmap(ptr::null_mut(), length, ACCESS, host::MAP_SHARED, file.as_raw_fd(), 0) };
    if at as isize == -1 {
        return Err(io::Error::last_os_error());
    }
    // SAFETY: the mapping was made here.
    if unsafe { host::madvise(at, length, host::MADV_DONTFORK) } == -1 {
        let error = io::Error::last_os_error();
        // SAFETY: nothing uses the mapping after this.
        unsafe { host::munmap(at, length) };
        return Err(error);
    }
    Ok(at.cast())
}

/// A thread's socket, box and bell.
pub(crate) struct Link {
    program: Use,
    tid: u8,
    socket: OwnedFd,
    bell: File,
    shared: *mut Shared,
    calls: u32,
    looks: u32,
}

// SAFETY: only the thread that has the port and the daemon use the box.
unsafe impl Send for Link {}

impl Link {
    /// Joins the kernel of a daemon as the thread of this program with the lowest free number.
    pub(crate) fn open(path: &Path) -> io::Result<Link> {
        let path = &absolute(path)?;
        let program = Use(Some(program(path)?));
        let mut taken = lock(&program.taken);
        let tid = (1..=u8::MAX).find(|tid| !taken[usize::from(*tid)]).ok_or(io::ErrorKind::QuotaExceeded)?;
        let socket = connect_to_daemon(path)?;
        // SAFETY: the call takes no pointer.
        let host_tid = unsafe { host::syscall(host::SYS_GETTID) } as i32;
        let ask = Ask { op: wire::OP_THREAD, number: tid.into(), value: 10, pid: host_tid, ..Ask::default() };
        let (_, Some([file, bell])) = exchange(&socket, &ask)? else { return Err(io::ErrorKind::InvalidData.into()) };
        // SAFETY: both files have come with the answer, and nothing else owns them.
        let (file, bell) = unsafe { (OwnedFd::from_raw_fd(file), File::from_raw_fd(bell)) };
        let shared = map(&file)?;
        taken[usize::from(tid)] = true;
        drop(taken);
        Ok(Link { program, tid, socket, bell, shared, calls: 0, looks: first_looks(LOOKS / 5) })
    }

    pub(crate) fn tid(&self) -> u8 {
        self.tid
    }

    pub(crate) fn process(&self) -> u32 {
        self.program.scoid
    }

    /// Returns the words that the daemon and the thread may change at any time: `asked`, `word` and `rings`.
    fn words(&self) -> (&AtomicU32, &AtomicU32, &AtomicU32) {
        // SAFETY:
        // - The mapping lives as long as the link.
        // - The words are used only as atomic numbers.
        unsafe { (&(*self.shared).asked, &(*self.shared).back.word, &(*self.shared).back.rings) }
    }

    /// Returns whether the daemon has ended, or has closed the socket.
    fn is_gone(&self) -> bool {
        let mut byte = 0u8;
        let (fd, flags) = (self.socket.as_raw_fd(), host::MSG_PEEK | host::MSG_DONTWAIT);
        // SAFETY: `byte` has room for one byte. The call only peeks at the socket, and doesn't wait.
        let came = uninterrupted(|| unsafe { host::recv(fd, ptr::from_mut(&mut byte).cast(), 1, flags) });
        came.err().is_none_or(|error| error.kind() != io::ErrorKind::WouldBlock)
    }

    /// Waits for the answer. A daemon that has ended wakes no thread, so its socket is checked from time to
    /// time. Returns false if the daemon is gone.
    fn wait(&mut self) -> bool {
        let word = ptr::from_ref(self.words().1);
        // SAFETY: as in `words`.
        let word = unsafe { &*word };
        for _ in 0..self.looks {
            if word.load(Ordering::Acquire) == wire::ANSWERED {
                return true;
            }
            hint::spin_loop();
        }
        let mut time = Duration::from_millis(10);
        let _ = word.compare_exchange(wire::OPEN, wire::ASLEEP, Ordering::AcqRel, Ordering::Acquire);
        while word.load(Ordering::Acquire) != wire::ANSWERED {
            let until = [time.as_secs() as i64, time.subsec_nanos().into()];
            let (at, number, wait) = (word.as_ptr(), host::SYS_FUTEX, host::FUTEX_WAIT);
            // SAFETY: the word is a futex of the box, and `until` is a time.
            let woken = unsafe { host::syscall(number, at, wait, wire::ASLEEP, until.as_ptr(), ptr::null::<u32>(), 0) };
            if woken == -1 && io::Error::last_os_error().kind() == io::ErrorKind::TimedOut {
                if self.is_gone() && word.load(Ordering::Acquire) != wire::ANSWERED {
                    return false;
                }
                time = (2 * time).min(Duration::from_secs(1));
            }
        }
        true
    }

    /// Puts an ask and these bytes into the box, and waits for the answer. Returns the answer and its bytes.
    fn ask(&mut self, ask: Ask, sent: &[&[u8]]) -> Result<(Answer, &[u8])> {
        const GONE: CallError = CallError::Refused(Errno::Down);
        if !self.program.is_own() {
            return Err(GONE);
        }
        // SAFETY: the mapping lives as long as the link.
        let bytes: *mut u8 = unsafe { &raw mut (*self.shared).back.bytes }.cast();
        let mut at = 0;
        for part in sent {
            // SAFETY:
            // - A call has at most two parts, of at most `MOST` bytes each, so the box has room for them.
            // - Between its calls the thread owns the box.
            unsafe { ptr::copy_nonoverlapping(part.as_ptr(), bytes.add(at), part.len()) };
            at += part.len();
        }
        // SAFETY: between its calls the thread owns the box.
        unsafe { (&raw mut (*self.shared).ask).write(ask) };
        let (asked, word, rings) = self.words();
        word.store(wire::OPEN, Ordering::Relaxed);
        asked.fetch_add(1, Ordering::SeqCst);
        if rings.load(Ordering::SeqCst) != 0 {
            let _ = self.bell.write(&1u64.to_ne_bytes());
        }
        if !self.wait() {
            return Err(GONE);
        }
        // SAFETY: the daemon has answered, and writes nothing until the next ask.
        let answer = unsafe { (&raw const (*self.shared).back.answer).read() };
        let length = (answer.length as usize).min(MOST);
        // SAFETY: the daemon writes nothing until the next ask, and the box has room for `length` bytes.
        let bytes = unsafe { std::slice::from_raw_parts(bytes, length) };
        if answer.error == 0 { Ok((answer, bytes)) } else { Err(error_of(&answer)) }
    }

    /// Asks about a name, which isn't a call of the kernel. Returns the id of the name's channel.
    pub(crate) fn ask_name(&mut self, op: u32, chid: ChannelId, name: &str) -> Result<ChannelId> {
        let ask = Ask { op, number: chid.0 as i32, sent_len: name.len() as u32, ..Ask::default() };
        if name.len() >= wire::NAME_ROOM {
            return Err(CallError::Refused(Errno::Inval));
        }
        let (answer, _) = self.ask(ask, &[name.as_bytes()])?;
        Ok(channel_of(answer.info.pid, answer.result))
    }

    /// Makes a call with its buffer, and waits for its completion.
    pub(crate) fn make<'a>(
        &mut self,
        time: Option<Duration>,
        buffer: &'a mut [u8],
        call: impl FnOnce(&'a [u8]) -> Call<'a>,
    ) -> Result<Mark> {
        let lent: *mut [u8] = buffer;
        // SAFETY: the buffer isn't written before the call's bytes are in the box.
        let (request, sent, room) = call(unsafe { &*lent }).raw(self.tid);
        let kind = request.kind;
        let is_send = kind == kind::SEND;
        if kind == kind::SHUTDOWN || sent.len() > MOST || is_send && room.len() > MOST {
            return Err(CallError::Refused(Errno::Inval));
        }
        // No message is longer than `MOST`.
        let room = &room[..room.len().min(MOST)];
        let receives = kind == kind::RECEIVE || kind == kind::RECEIVE_PULSE;
        let room_len = if receives { lent.len().clamp(size_of::<RawPulse>(), MOST) } else { room.len() };
        self.calls = self.calls.wrapping_add(1).max(1);
        let ask = self.ask_of(request, time, [sent.len(), room_len]);
        let (answer, bytes) = self.ask(ask, &[sent, if is_send { room } else { &[] }])?;
        // SAFETY: nothing uses the call's slices after this.
        let buffer = unsafe { &mut *lent };
        let copied = bytes.len().min(buffer.len());
        if kind != kind::RECEIVE_PULSE && (kind != kind::RECEIVE || answer.result != 0) {
            buffer[..copied].copy_from_slice(&bytes[..copied]);
        }
        Ok(mark_of(kind, &answer, bytes, copied))
    }

    fn ask_of(&self, request: RawRequest, time: Option<Duration>, lengths: [usize; 2]) -> Ask {
        let pid = (request.id >> 32) as i32;
        Ask {
            op: wire::OP_CALL,
            call: self.calls,
            number: request.id as i32,
            pid: if pid == 0 { self.program.pid as i32 } else { pid },
            states: if time.is_some() { wire::TIMED_STATES } else { 0 },
            time: time.map_or(0, |time| time.as_nanos().try_into().unwrap_or(u64::MAX)),
            value: request.value(),
            sent_len: lengths[0] as u32,
            room_len: lengths[1] as u32,
            request,
            ..Ask::default()
        }
    }
}

/// The daemon frees the thread's place when its socket ends, so the number may be used again only after that.
/// A forked child has no box, and the socket belongs to its parent.
impl Drop for Link {
    fn drop(&mut self) {
        if !self.program.is_own() {
            return;
        }
        // SAFETY: the mapping belongs to this link, and nothing uses it after this.
        unsafe { host::munmap(self.shared.cast(), size_of::<Shared>()) };
        end(&self.socket);
        lock(&self.program.taken)[usize::from(self.tid)] = false;
    }
}

/// Returns the id of a channel: its number, with its program's pid in the upper half. Other programs attach
/// to the channel by this id.
fn channel_of(pid: i32, number: i64) -> ChannelId {
    ChannelId((pid as u64) << 32 | number as u32 as u64)
}

fn error_of(answer: &Answer) -> CallError {
    let errno = match answer.error {
        _ if answer.how == wire::CODE => return CallError::Code(answer.error),
        host::ETIMEDOUT => return CallError::TimedOut,
        host::ENOMEM => return CallError::NoMemory,
        host::ENOENT | host::ESRCH => Errno::Srch,
        host::EBADF => Errno::Badf,
        host::EAGAIN => Errno::Again,
        host::EINTR => Errno::Intr,
        host::EBUSY | host::EEXIST => Errno::Busy,
        host::EOVERFLOW => Errno::Exhausted,
        host::ESHUTDOWN => Errno::Down,
        _ => Errno::Inval,
    };
    if answer.how == wire::CUT { CallError::Cancelled(errno) } else { CallError::Refused(errno) }
}

fn info_of(info: &MsgInfo, copied: usize) -> Info {
    Info {
        process: info.scoid as u32,
        thread: info.tid as u8,
        priority: info.priority as u8,
        connection: ConnectionId(info.coid as u64),
        msglen: copied,
        srcmsglen: info.srcmsglen,
        dstmsglen: info.dstmsglen,
    }
}

fn pulse_of(answer: &Answer, bytes: &[u8]) -> Mark {
    let number =
        |at: usize| bytes.get(at..at + 4).map_or(0, |part| i32::from_ne_bytes(part.try_into().unwrap_or_default()));
    let code = bytes.get(offset_of!(RawPulse, code)).map_or(0, |code| *code as i8);
    let value = number(offset_of!(RawPulse, value));
    let what = match code {
        wire::CODE_UNBLOCK => What::Unblock(ReceiveId(value as u64)),
        wire::CODE_DISCONNECT => What::Disconnect(number(offset_of!(RawPulse, scoid)) as u32),
        code => What::User { code, value },
    };
    Mark::Pulse { number: 0, pulse: Pulse { priority: answer.priority, what } }
}

fn state_of(answer: &Answer) -> State {
    let blocked = channel_of(answer.info.pid, answer.count.into());
    let state = match answer.result {
        wire::STATE_SEND => ThreadState::SendBlocked(blocked),
        wire::STATE_RECEIVE => ThreadState::ReceiveBlocked(blocked),
        wire::STATE_REPLY => ThreadState::ReplyBlocked(blocked),
        _ => ThreadState::Ready,
    };
    State { state, priority: answer.priority }
}

/// Returns the result of a call of this kind.
fn mark_of(kind: u8, answer: &Answer, bytes: &[u8], copied: usize) -> Mark {
    let (result, id) = (answer.result, answer.result as u64);
    match kind {
        kind::CHANNEL_CREATE => Mark::Channel(channel_of(process::id() as i32, result)),
        kind::CONNECT_ATTACH => Mark::Connection(ConnectionId(id)),
        kind::SEND => Mark::Replied { status: result, copied: (answer.count as usize).min(copied) },
        kind::RECEIVE if result != 0 => Mark::Message { rcvid: ReceiveId(id), info: info_of(&answer.info, copied) },
        kind::RECEIVE | kind::RECEIVE_PULSE => pulse_of(answer, bytes),
        kind::READ | kind::WRITE => Mark::Count(result as usize),
        kind::INFO => Mark::Info(info_of(&answer.info, answer.info.msglen)),
        kind::STATE => Mark::State(state_of(answer)),
        _ => Mark::Done,
    }
}

#[cfg(test)]
#[path = "../tests/unit/daemon.rs"]
mod test;
