//! The parts that the tests share.
#![allow(dead_code)] // no test uses all functions

use balsaeuchre::{CallError, ChannelId, Port, ReceiveId, Received, Thread, ThreadState, open_array};
use std::panic::resume_unwind;
use std::thread;
use std::time::{Duration, Instant};

pub const SERVER: u8 = 1;
pub const CLIENT: u8 = 2;

/// The time after which a test counts as hanging.
fn patience() -> Duration {
    Duration::from_secs(std::env::var("PATIENCE").map_or(200, |word| word.parse().unwrap()))
}

/// Returns a server's port, and two of the client's process.
pub fn few() -> [Port; 3] {
    open_array([Thread::new(1, SERVER, 10), Thread::new(2, CLIENT, 20), Thread::new(3, CLIENT, 30)]).unwrap()
}

/// Runs a test, and fails it if it hangs.
pub fn within(test: impl FnOnce() + Send + 'static) {
    let start = Instant::now();
    let running = thread::spawn(test);
    while !running.is_finished() {
        assert!(start.elapsed() < patience(), "no end after {:?}", patience());
        thread::sleep(Duration::from_millis(1));
    }
    running.join().unwrap_or_else(|why| resume_unwind(why));
}

/// Makes all calls again by one thread, if they were recorded. No call may be open.
pub fn made_again(port: &mut Port) {
    #[cfg(feature = "record")]
    println!("{} calls made again", port.made_again());
    #[cfg(not(feature = "record"))]
    let _ = port;
}

/// Returns the id of the message that was received.
pub fn message(received: Result<Received<'_>, CallError>) -> ReceiveId {
    match received {
        Ok(Received::Message(request)) => request.rcvid,
        other => panic!("{other:?}"),
    }
}

/// Waits until a thread is in a state.
pub fn until(port: &mut Port, thread: u8, state: ThreadState) {
    while port.state(thread).unwrap().state != state {
        thread::yield_now();
    }
}

/// A channel that was never created.
pub fn no_channel() -> ChannelId {
    ChannelId(1 << 39)
}
