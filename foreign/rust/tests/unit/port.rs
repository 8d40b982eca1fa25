//! Tests of how often a port looks at its word before it sleeps.

use super::*;
use crate::{ChannelFlags, Received};

unsafe extern "C" {
    fn sched_getaffinity(pid: i32, length: usize, processors: *mut [u64; 16]) -> i32;
    fn sched_setaffinity(pid: i32, length: usize, processors: *const [u64; 16]) -> i32;
}

/// Restricts the calling thread, and the threads that it starts, to one of its processors.
fn stay_on_one_processor() {
    let mut processors = [0; 16];
    // SAFETY: both functions get a mask and its length.
    unsafe {
        assert!(sched_getaffinity(0, size_of_val(&processors), &mut processors) >= 0);
        let at = processors.iter().position(|word| *word != 0).unwrap();
        let one = 1 << processors[at].trailing_zeros();
        processors = [0; 16];
        processors[at] = one;
        assert_eq!(sched_setaffinity(0, size_of_val(&processors), &processors), 0);
    }
}

fn looks(port: &Port) -> u32 {
    match &port.side {
        Side::Own(place) => place.looks,
        Side::Daemon(_) => unreachable!("it was opened in this program"),
    }
}

/// Makes round trips in which both sides have to wait. Returns each port's number of looks after them.
fn looks_after_waiting() -> [u32; 2] {
    let [mut server, mut client] = open_array([Thread::new(1, 1, 10), Thread::new(2, 2, 20)]).unwrap();
    let channel = server.channel_create(ChannelFlags::NONE).unwrap();
    let connection = client.connect_attach(channel).unwrap();
    thread::scope(|scope| {
        scope.spawn(|| {
            for _ in 0..20 {
                let Received::Message(request) = server.msg_receive(channel, &mut []).unwrap() else { panic!() };
                thread::sleep(Duration::from_millis(1));
                server.msg_reply(request.rcvid, 0, b"").unwrap();
            }
        });
        for _ in 0..20 {
            client.msg_send(connection, b"", &mut []).unwrap();
            thread::sleep(Duration::from_millis(1));
        }
    });
    [looks(&server), looks(&client)]
}

#[test]
fn no_looks_on_one_processor() {
    let working = thread::spawn(|| {
        stay_on_one_processor();
        looks_after_waiting()
    });
    assert_eq!(working.join().unwrap(), [0, 0]);
}

#[test]
fn looks_stay_within_their_bounds() {
    let shared = Shared::new(&[Thread::new(1, 1, 1)]).unwrap();
    let place = &shared.places[0];
    let after = |mut looks, is_ended| {
        assert_eq!(place.look(&mut looks), is_ended);
        looks
    };
    assert_eq!([after(0, true), after(1, true), after(LOOKS, true)], [0, 3, LOOKS]);
    // SAFETY:
    // - No port has the place.
    // - The buffer is empty.
    unsafe { place.open(Lent::of(&mut [])) };
    let least = LOOKS / 5;
    assert_eq!([after(0, false), after(1, false), after(least, false)], [0, 1, least]);
    assert_eq!([after(least + 1, false), after(LOOKS, false)], [least, LOOKS / 2]);
}
