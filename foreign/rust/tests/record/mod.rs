//! A record for the package's own tests, with the feature `record`. It has every call, in the order of the
//! lock, and the results in each thread. One thread can make these calls again.

use crate::errors::{CallError, Errno, Result, outcome};
use crate::ids::ReceiveId;
use crate::kernel::{Call, Ending, Kernel, Mark, RawRequest, Thread};
use crate::port::Port;
use crate::results::Info;
use std::mem::take;
use std::sync::Mutex;

/// A call as the kernel got it, with its thread's whole buffer. The kernel got only the first `seen` bytes of
/// it.
struct Kept {
    request: RawRequest,
    sent: Vec<u8>,
    room: Vec<u8>,
    seen: usize,
    /// Whether the call reads the rest of a message for its receiver.
    reads_on: bool,
}

/// The result that a thread got from a call, and its whole buffer after the call.
#[derive(Debug, PartialEq)]
struct Got {
    result: Result<Mark>,
    buffer: Vec<u8>,
}

/// Every call so far, in the order of the lock, and the results in each thread.
pub(crate) struct Record {
    roster: Vec<Thread>,
    calls: Mutex<Vec<Kept>>,
    got: Vec<Mutex<Vec<Got>>>,
}

impl Record {
    /// Returns an empty record of this roster. The roster has `threads` threads, followed by the clocks.
    pub(crate) fn new(roster: &[Thread], threads: usize) -> Record {
        let got = (0..threads).map(|_| Mutex::default()).collect();
        Record { roster: roster.to_vec(), calls: Mutex::default(), got }
    }

    /// Records a call. The caller has the kernel's lock.
    pub(crate) fn call(&self, request: RawRequest, sent: &[u8], seen: usize, buffer: &[u8]) {
        let (sent, room) = (sent.to_vec(), buffer.to_vec());
        self.keep(Kept { request, sent, room, seen, reads_on: false });
    }

    /// Records the call that reads the rest of a message. The caller has the kernel's lock.
    pub(crate) fn read_on(&self, thread: u8, rcvid: ReceiveId, room: &[u8], offset: usize) {
        let (request, ..) = Call::Read { rcvid, offset, buffer: room }.raw(thread);
        self.keep(Kept { request, sent: Vec::new(), room: room.to_vec(), seen: room.len(), reads_on: true });
    }

    fn keep(&self, kept: Kept) {
        self.calls.lock().unwrap().push(kept);
    }

    /// Records the result of a call of the thread at this index.
    pub(crate) fn end(&self, at: usize, result: Result<Mark>, buffer: &[u8]) {
        self.got[at].lock().unwrap().push(Got { result, buffer: buffer.to_vec() });
    }

    fn is_clock(&self, thread: u8) -> bool {
        self.roster[self.got.len()..].iter().any(|clock| clock.thread == thread)
    }

    /// Makes the calls again, and returns the results that each thread should have got, by thread number.
    fn again(&self) -> Vec<Vec<Got>> {
        let mut kernel = Kernel::new(&self.roster).unwrap();
        let mut got: Vec<Vec<Got>> = (0..256).map(|_| Vec::new()).collect();
        let mut rooms = vec![Vec::new(); 256];
        let mut msglens = [0; 256];
        for kept in self.calls.lock().unwrap().iter() {
            let maker = kept.request.thread;
            let endings = match kernel.make(&kept.request, &kept.sent, &kept.room[..kept.seen]) {
                Ok(endings) => endings,
                Err(errno) => {
                    got[usize::from(maker)].push(Got { result: Err(errno.into()), buffer: kept.room.clone() });
                    continue;
                }
            };
            if kept.reads_on {
                let message = got[usize::from(maker)].last_mut().unwrap();
                read_on(message, endings.iter().next().unwrap(), &mut msglens);
                continue;
            }
            rooms[usize::from(maker)] = kept.room.clone();
            for ending in endings.iter() {
                let mut buffer = take(&mut rooms[usize::from(ending.thread)]);
                buffer[..ending.buffer.len()].copy_from_slice(ending.buffer);
                let result = outcome(with_msglen(ending.mark, &mut msglens), ending.thread != maker);
                let result = match result {
                    Err(CallError::Cancelled(Errno::Intr)) if self.is_clock(maker) => Err(CallError::TimedOut),
                    result => result,
                };
                got[usize::from(ending.thread)].push(Got { result, buffer });
            }
        }
        got
    }
}

/// Returns the result with the number of copied bytes that a port returns for the message. This number
/// includes the rest that was read.
fn with_msglen(mark: Mark, msglens: &mut [usize; 256]) -> Mark {
    match mark {
        Mark::Message { info, .. } => msglens[usize::from(info.thread)] = info.msglen,
        Mark::Info(info) => return Mark::Info(Info { msglen: msglens[usize::from(info.thread)], ..info }),
        _ => (),
    }
    mark
}

/// Adds the rest of a message, which was read, to the result of the message's receiver.
fn read_on(message: &mut Got, rest: Ending<'_>, msglens: &mut [usize; 256]) {
    let Got { result: Ok(Mark::Message { info, .. }), buffer } = message else { panic!("no message to read on") };
    if let Mark::Count(count) = rest.mark {
        buffer[info.msglen..][..count].copy_from_slice(rest.buffer);
        info.msglen += count;
    }
    msglens[usize::from(info.thread)] = info.msglen;
}

impl Port {
    /// Makes all calls until now again, by one thread on a new kernel. Panics if a thread had another result.
    /// No call may be open. Returns the number of calls.
    #[doc(hidden)]
    pub fn made_again(&mut self) -> usize {
        // The lock is released before a panic, which would otherwise abort the program.
        let compared = self.compare();
        compared.unwrap_or_else(|difference| panic!("{difference}"))
    }

    fn compare(&self) -> std::result::Result<usize, String> {
        let _locked = self.shared().lock();
        let record = &self.shared().record;
        let again = record.again();
        for (Thread { thread, .. }, got) in record.roster.iter().zip(&record.got) {
            let (got, again) = (got.lock().unwrap(), &again[usize::from(*thread)]);
            if let Some(turn) = got.iter().zip(again).position(|(got, again)| got != again) {
                return Err(format!("thread {thread}, ending {turn}: {:?}, made again {:?}", got[turn], again[turn]));
            }
            if got.len() != again.len() {
                return Err(format!("thread {thread}: {} endings, made again {}", got.len(), again.len()));
            }
        }
        Ok(record.calls.lock().unwrap().len())
    }
}
