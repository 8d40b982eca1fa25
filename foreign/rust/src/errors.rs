//! The errors of opening a kernel, and of calls.

use crate::kernel::{Mark, UNPROVED, VERSION};
use std::error::Error;
use std::fmt;

/// The error with which the kernel refused or cancelled a call. The first six have the names of POSIX errors
/// without the `E`. Which error a call fails with is this kernel's own choice.
#[derive(Clone, Copy, Debug, PartialEq, Eq, Hash)]
pub enum Errno {
    /// There is no such thread, channel or held message. Or the call was cancelled: its channel was
    /// destroyed, or the kernel was shut down.
    Srch,
    /// There is no such connection, or its channel was destroyed. Or the send was cancelled: its connection
    /// was detached.
    Badf,
    /// An argument is out of range, or the caller's process has no such channel to destroy, or no such
    /// connection to detach.
    Inval,
    /// A limit is reached.
    Again,
    /// The thread was unblocked.
    Intr,
    /// The thread is blocked, so it can't make a call.
    Busy,
    /// The allocator refused.
    NoMemory,
    /// The kernel is shut down.
    Down,
    /// The kernel has made all the calls that it can number, 2^40.
    Exhausted,
    /// The thread isn't in the roster.
    NoThread,
}

/// The errors, with their numbers in the library and their messages. The number 10 belongs to a kernel that
/// keeps its history; the library's kernel doesn't.
const ERRNOS: [(Errno, u32, &str); 10] = [
    (Errno::Srch, 1, "no such thread, channel or held message"),
    (Errno::Badf, 2, "no such connection"),
    (Errno::Inval, 3, "argument outside its range"),
    (Errno::Again, 4, "limit reached"),
    (Errno::Intr, 5, "unblocked"),
    (Errno::Busy, 6, "thread is blocked"),
    (Errno::NoMemory, 7, "out of memory"),
    (Errno::Down, 8, "kernel is shut down"),
    (Errno::Exhausted, 9, "kernel has made all its calls"),
    (Errno::NoThread, 11, "thread isn't in the roster"),
];

impl Errno {
    /// Returns the error with this number, which must be in `ERRNOS`.
    #[cold]
    pub(crate) fn of(number: u32) -> Errno {
        ERRNOS.iter().find(|row| row.1 == number).expect("a number of an error").0
    }
}

impl fmt::Display for Errno {
    fn fmt(&self, f: &mut fmt::Formatter<'_>) -> fmt::Result {
        f.write_str(ERRNOS[*self as usize].2)
    }
}

impl Error for Errno {}

/// The error of opening a kernel.
#[derive(Clone, Copy, Debug, PartialEq, Eq)]
pub enum OpenError {
    /// The kernel refused. `Inval`: a thread has the priority 0, or its number comes twice. `Again`: there
    /// are too many threads. `NoMemory`: the allocator refused.
    Refused(Errno),
    /// The linked library has another version than the package. Both are a hundred times the first number
    /// plus the second.
    #[allow(missing_docs)] // the names of the fields say enough
    Version { library: u32, package: u32 },
    /// The package was built for a proved library and is linked with an unproved one. The number is the
    /// library's version.
    LibraryUnproved(u32),
    /// The package was built for an unproved library and is linked with a proved one. The number is the
    /// library's version.
    LibraryProved(u32),
}

impl OpenError {
    pub(crate) fn check_version(library: u32) -> std::result::Result<(), OpenError> {
        let number = library & !UNPROVED;
        match (library & UNPROVED, VERSION & UNPROVED) {
            _ if library == VERSION => Ok(()),
            (UNPROVED, 0) => Err(OpenError::LibraryUnproved(number)),
            (0, UNPROVED) => Err(OpenError::LibraryProved(number)),
            _ => Err(OpenError::Version { library: number, package: VERSION & !UNPROVED }),
        }
    }
}

impl fmt::Display for OpenError {
    fn fmt(&self, f: &mut fmt::Formatter<'_>) -> fmt::Result {
        match self {
            OpenError::Refused(errno) => write!(f, "roster refused: {errno}"),
            OpenError::Version { library, package } => write!(f, "library of version {library}, not {package}"),
            OpenError::LibraryUnproved(number) => {
                write!(f, "library of version {number} is unproved, and the package was built for a proved one")
            }
            OpenError::LibraryProved(number) => {
                write!(f, "library of version {number} is proved, and the package was built for an unproved one")
            }
        }
    }
}

impl Error for OpenError {}

/// The result of a call.
pub type Result<T> = std::result::Result<T, CallError>;

/// The error that a call returns in place of its result.
#[derive(Clone, Copy, Debug, PartialEq, Eq)]
pub enum CallError {
    /// The call was refused, and changed nothing.
    Refused(Errno),
    /// The call was blocked, and was cancelled: with `Srch` by `channel_destroy` or `shutdown`, with `Badf`
    /// by `connect_detach`, with `Intr` by `unblock`.
    Cancelled(Errno),
    /// The call was blocked for longer than its [`timeout`](crate::Port::timeout).
    TimedOut,
    /// The server replied to the message with this code, by `msg_error`. It isn't 0.
    Code(i32),
    /// The allocator refused memory.
    NoMemory,
    /// The call completed with the result of another kind of call. A correct kernel never returns this.
    Unexpected,
}

impl fmt::Display for CallError {
    fn fmt(&self, f: &mut fmt::Formatter<'_>) -> fmt::Result {
        match self {
            CallError::Refused(errno) => write!(f, "call refused: {errno}"),
            CallError::Cancelled(errno) => write!(f, "call cancelled: {errno}"),
            CallError::TimedOut => f.write_str("call timed out"),
            CallError::Code(code) => write!(f, "server replied with the error code {code}"),
            CallError::NoMemory => f.write_str("out of memory"),
            CallError::Unexpected => f.write_str("call completed with the result of another kind of call"),
        }
    }
}

impl Error for CallError {}

/// Makes the error of a call that the kernel refused.
impl From<Errno> for CallError {
    fn from(errno: Errno) -> CallError {
        if errno == Errno::NoMemory { CallError::NoMemory } else { CallError::Refused(errno) }
    }
}

/// Returns the value or the error of a completed call. `waited` says whether the call was blocked. If it was,
/// an error other than `NoMemory` means that the call was cancelled.
pub(crate) fn outcome(mark: Mark, waited: bool) -> Result<Mark> {
    match mark {
        Mark::Failed(errno) if waited && errno != Errno::NoMemory => Err(CallError::Cancelled(errno)),
        Mark::Failed(errno) => Err(errno.into()),
        Mark::Errored(code) => Err(CallError::Code(code)),
        mark => Ok(mark),
    }
}
