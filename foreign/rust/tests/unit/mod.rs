//! Tests of parts that aren't visible outside the package.

use crate::errors::{CallError, Errno, OpenError, outcome};
use crate::ids::{ChannelFlags, ChannelId};
use crate::kernel::{Call, Kernel, Mark, Thread, UNPROVED, VERSION};

/// The version without the bit of an unproved library.
const NUMBER: u32 = VERSION & !UNPROVED;

#[test]
fn another_version_is_told() {
    let error = OpenError::Version { library: 9, package: NUMBER };
    assert_eq!(OpenError::check_version(9 | (VERSION & UNPROVED)), Err(error));
    assert_eq!(OpenError::check_version(VERSION), Ok(()));
    assert_eq!(error.to_string(), "library of version 9, not 10");
}

#[test]
fn the_version_is_the_package_s() {
    let number = |word: &str| word.parse::<u32>().unwrap();
    let (first, second) = (number(env!("CARGO_PKG_VERSION_MAJOR")), number(env!("CARGO_PKG_VERSION_MINOR")));
    assert_eq!(NUMBER, 100 * first + second);
}

#[test]
fn calls_are_numbered() {
    let mut kernel = Kernel::new(&[Thread::new(1, 1, 1)]).unwrap();
    let numbers: Vec<u64> = (0..3).map(|_| kernel.call(1, Call::State { thread: 1 }).unwrap().number).collect();
    assert_eq!(numbers, [1, 2, 3]);
}

#[test]
fn room_for_all() {
    let mut kernel = Kernel::new(&[Thread::new(1, 1, 1), Thread::new(2, 1, 1), Thread::new(3, 1, 1)]).unwrap();
    let chid = ChannelId(1);
    kernel.call(3, Call::ChannelCreate { flags: ChannelFlags::NONE }).unwrap();
    for thread in 1..=2 {
        kernel.call(thread, Call::Receive { chid, buffer: &[thread; 5000] }).unwrap();
    }
    let ended = kernel.call(3, Call::ChannelDestroy { chid }).unwrap();
    assert_eq!(ended.iter().map(|one| one.buffer.len()).collect::<Vec<_>>(), [5000, 5000, 0]);
}

#[test]
fn what_a_thread_gets() {
    assert_eq!(outcome(Mark::Failed(Errno::Srch), false), Err(CallError::Refused(Errno::Srch)));
    assert_eq!(outcome(Mark::Failed(Errno::Srch), true), Err(CallError::Cancelled(Errno::Srch)));
    assert_eq!(outcome(Mark::Failed(Errno::NoMemory), true), Err(CallError::NoMemory));
    assert_eq!(outcome(Mark::Errored(-3), true), Err(CallError::Code(-3)));
    assert_eq!(outcome(Mark::Done, true), Ok(Mark::Done));
}
