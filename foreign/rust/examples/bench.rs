//! usage: bench CLIENTS SERVERS ROUNDS [BUFFER [PAUSE]]
//!
//! Each client makes ROUNDS round trips. It sends 4 bytes, with a reply buffer of 8 bytes. A server receives
//! them into a buffer of 16 bytes, or of BUFFER bytes, and replies with 4 bytes, which the client checks. The
//! program prints the microseconds of a round trip: the time until all clients have ended, divided by the
//! number of all round trips. A client waits PAUSE milliseconds before it sends. If PAUSE is less than 0, a
//! server waits -PAUSE milliseconds before it receives.

use balsaeuchre::{ChannelFlags, ChannelId, Port, Received, Thread, open};
use std::thread;
use std::time::{Duration, Instant};

/// Waits this number of milliseconds, if it is more than 0.
fn wait(pause: i64) {
    if let Ok(pause @ 1..) = u64::try_from(pause) {
        thread::sleep(Duration::from_millis(pause));
    }
}

fn serve(mut port: Port, channel: ChannelId, size: usize, pause: i64) {
    let mut buffer = vec![0; size];
    wait(-pause);
    while let Ok(Received::Message(request)) = port.msg_receive(channel, &mut buffer) {
        port.msg_reply(request.rcvid, 0, &request.bytes()[..4]).unwrap();
        wait(-pause);
    }
}

fn send(mut port: Port, channel: ChannelId, rounds: u32, pause: i64) {
    let to = port.connect_attach(channel).unwrap();
    for round in 0..rounds {
        let message = round.to_be_bytes();
        let mut buffer = [0; 8];
        wait(pause);
        assert_eq!(port.msg_send(to, &message, &mut buffer).unwrap().bytes(), message);
    }
}

fn main() {
    let words: Vec<i64> = std::env::args().skip(1).map(|word| word.parse().expect("a number")).collect();
    let [clients, servers, rounds, ref rest @ ..] = words[..] else { panic!("bench CLIENTS SERVERS ROUNDS [BUFFER]") };
    let (clients, servers) = (clients as usize, servers as usize);
    let (size, pause) = (rest.first().map_or(16, |&size| size as usize), rest.get(1).copied().unwrap_or(0));
    let thread = |at: usize| Thread::new(at as u8 + 1, if at < servers { 1 } else { 2 }, 10);
    let threads: Vec<Thread> = (0..=servers + clients).map(thread).collect();
    let mut ports = open(&threads).unwrap();
    let mut last = ports.pop().unwrap();
    let senders = ports.split_off(servers);
    let channel = ports[0].channel_create(ChannelFlags::NONE).unwrap();
    let start = Instant::now();
    let spent = thread::scope(|scope| {
        ports.into_iter().for_each(|port| drop(scope.spawn(move || serve(port, channel, size, pause))));
        let running: Vec<_> =
            senders.into_iter().map(|port| scope.spawn(move || send(port, channel, rounds as u32, pause))).collect();
        running.into_iter().for_each(|thread| thread.join().unwrap());
        let spent = start.elapsed();
        last.shutdown().unwrap();
        spent
    });
    println!("{:.3} us", spent.as_secs_f64() * 1e6 / (clients as f64 * rounds as f64));
}
