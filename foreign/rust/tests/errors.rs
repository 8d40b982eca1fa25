//! The rosters that are refused, and the messages of errors.

use balsaeuchre::kernel::{Call, Kernel};
use balsaeuchre::{CallError, Errno, OpenError, Thread, open, open_array};
use std::error::Error;

fn refused(threads: &[Thread]) -> Option<OpenError> {
    open(threads).err()
}

#[test]
fn rosters() {
    let thread = |at: u8| Thread::new(at, 1, 1);
    assert_eq!(refused(&[Thread::new(1, 1, 0)]), Some(OpenError::Refused(Errno::Inval)));
    assert_eq!(refused(&[thread(1), thread(2), thread(1)]), Some(OpenError::Refused(Errno::Inval)));
    let all: Vec<Thread> = (0..=64).map(thread).collect();
    assert_eq!(refused(&all), Some(OpenError::Refused(Errno::Again)));
    assert_eq!(refused(&all[..64]), Some(OpenError::Refused(Errno::Again)));
    assert_eq!(open(&all[..63]).unwrap().len(), 63);
    let processes: Vec<Thread> = (0..33).map(|at| Thread::new(255 - at, at, 1)).collect();
    assert_eq!(refused(&processes), Some(OpenError::Refused(Errno::Again)));
    assert_eq!(open(&processes[..32]).unwrap().len(), 32);
    let ports = open(&[Thread::new(9, 1, 3), Thread::new(4, 2, 5)]).unwrap();
    assert_eq!(ports[0].thread(), Thread::new(9, 1, 3));
    assert_eq!(ports[1].thread(), Thread::new(4, 2, 5));
    assert!(open(&[]).unwrap().is_empty());
    assert!(open_array([thread(3)]).is_ok());
}

#[test]
fn the_kernel_alone() {
    assert!(Kernel::new(&[Thread::new(1, 1, 0)]).is_err());
    let mut kernel = Kernel::new(&[Thread::new(1, 1, 1)]).unwrap();
    assert_eq!(kernel.call(2, Call::Shutdown).err(), Some(Errno::NoThread));
    kernel.call(1, Call::ChannelCreate { flags: Default::default() }).unwrap();
    let chid = balsaeuchre::ChannelId(1);
    assert!(kernel.call(1, Call::Receive { chid, buffer: b"" }).unwrap().iter().next().is_none());
    let busy = kernel.call(1, Call::Shutdown).unwrap().iter().next().unwrap().mark;
    assert_eq!(busy, balsaeuchre::kernel::Mark::Failed(Errno::Busy));
}

#[test]
fn what_errors_say() {
    let said = |error: &dyn Error| error.to_string();
    assert_eq!(said(&CallError::Refused(Errno::Srch)), "call refused: no such thread, channel or held message");
    assert_eq!(said(&CallError::Cancelled(Errno::Badf)), "call cancelled: no such connection");
    assert_eq!(said(&CallError::TimedOut), "call timed out");
    assert_eq!(said(&CallError::Code(-4)), "server replied with the error code -4");
    assert_eq!(said(&CallError::NoMemory), "out of memory");
    assert_eq!(said(&CallError::Unexpected), "call completed with the result of another kind of call");
    assert_eq!(said(&OpenError::Refused(Errno::Again)), "roster refused: limit reached");
    let all = [
        (Errno::Srch, "no such thread, channel or held message"),
        (Errno::Badf, "no such connection"),
        (Errno::Inval, "argument outside its range"),
        (Errno::Again, "limit reached"),
        (Errno::Intr, "unblocked"),
        (Errno::Busy, "thread is blocked"),
        (Errno::NoMemory, "out of memory"),
        (Errno::Down, "kernel is shut down"),
        (Errno::Exhausted, "kernel has made all its calls"),
        (Errno::NoThread, "thread isn't in the roster"),
    ];
    all.iter().for_each(|(errno, words)| assert_eq!(said(errno), *words));
    assert_eq!(CallError::from(Errno::NoMemory), CallError::NoMemory);
    assert_eq!(CallError::from(Errno::Down), CallError::Refused(Errno::Down));
}
