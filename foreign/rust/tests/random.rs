//! Threads that make random calls of every kind, until one of the threads shuts the kernel down. With the
//! feature `record`, one thread makes all these calls again.

mod common;

use balsaeuchre::{
    CallError, ChannelFlags, ChannelId, ConnectionId, Errno, Port, Pulse, ReceiveId, Received, Thread, What, open,
};
use common::{made_again, within};
use std::sync::atomic::{AtomicU64, Ordering};
use std::thread;
use std::time::Duration;

/// Ids that calls returned, for any thread to use.
#[derive(Default)]
struct Known {
    channels: [AtomicU64; 3],
    connections: [AtomicU64; 6],
    messages: [AtomicU64; 6],
}

/// A generator of random numbers; its state begins as the seed.
struct Random(u64);

impl Random {
    fn below(&mut self, end: u64) -> u64 {
        self.0 ^= self.0 << 13;
        self.0 ^= self.0 >> 7;
        self.0 ^= self.0 << 17;
        (self.0 >> 11) % end
    }

    fn one<'a>(&mut self, ids: &'a [AtomicU64]) -> &'a AtomicU64 {
        &ids[self.below(ids.len() as u64) as usize]
    }

    fn known(&mut self, ids: &[AtomicU64]) -> u64 {
        self.one(ids).load(Ordering::Relaxed)
    }
}

fn receive(port: &mut Port, random: &mut Random, known: &Known) -> Result<(), CallError> {
    let channel = ChannelId(random.known(&known.channels));
    let mut buffer = vec![3; random.below(9000) as usize];
    match port.msg_receive(channel, &mut buffer)? {
        Received::Message(request) => {
            assert!(request.bytes().iter().all(|byte| *byte == request.info.thread));
            assert!(request.buffer[request.copied..].iter().all(|byte| *byte == 3));
            random.one(&known.messages).store(request.rcvid.0, Ordering::Relaxed);
        }
        Received::Pulse(Pulse { what: What::Unblock(rcvid), .. }) => {
            random.one(&known.messages).store(rcvid.0, Ordering::Relaxed);
        }
        Received::Pulse(_) => (),
    }
    Ok(())
}

fn answer(port: &mut Port, random: &mut Random, rcvid: ReceiveId) -> Result<(), CallError> {
    let bytes = vec![6; random.below(40) as usize];
    match random.below(8) {
        0 => port.msg_info(rcvid).map(|_| ()),
        1 => port.msg_read(rcvid, random.below(50) as usize, &mut [1; 30]).map(|_| ()),
        2 => port.msg_write(rcvid, random.below(50) as usize, &bytes).map(|_| ()),
        3 => port.msg_error(rcvid, random.below(5) as i32),
        _ => port.msg_reply(rcvid, 5, &bytes),
    }
}

/// Makes a random call.
fn call(port: &mut Port, random: &mut Random, known: &Known) -> Result<(), CallError> {
    if random.below(3) > 0 {
        port.timeout(Duration::from_micros(random.below(300)));
    }
    let thread = random.below(7) as u8;
    let connection = ConnectionId(random.known(&known.connections));
    match random.below(30) {
        0 => {
            let channel = port.channel_create(ChannelFlags(random.below(8) as u8))?;
            random.one(&known.channels).store(channel.0, Ordering::Relaxed);
        }
        1 if random.below(8) == 0 => port.channel_destroy(ChannelId(random.known(&known.channels)))?,
        2..=4 => {
            let connection = port.connect_attach(ChannelId(random.known(&known.channels)))?;
            random.one(&known.connections).store(connection.0, Ordering::Relaxed);
        }
        5 => port.connect_detach(connection)?,
        6 => port.sched_set(thread, random.below(9) as u8)?,
        7 => port.state(thread).map(|_| ())?,
        8 => port.unblock(thread)?,
        9..=10 => port.msg_send_pulse(connection, random.below(9) as u8, 1, 2)?,
        11 => port.msg_receive_pulse(ChannelId(random.known(&known.channels))).map(|_| ())?,
        12..=17 => {
            let message = vec![port.thread().thread; random.below(9000) as usize];
            let _ = port.msg_send(connection, &message, &mut [8; 60])?;
        }
        18..=23 => receive(port, random, known)?,
        _ => {
            let rcvid = ReceiveId(random.known(&known.messages));
            answer(port, random, rcvid)?;
        }
    }
    Ok(())
}

/// Unblocks a random thread, and replies to a random message with a code, so that the other threads continue.
/// The calls affect only threads of the port's process, and messages that it holds.
fn help(port: &mut Port, random: &mut Random, known: &Known) {
    let _ = port.unblock(random.below(6) as u8);
    let _ = port.msg_error(ReceiveId(random.known(&known.messages)), 1);
    thread::sleep(Duration::from_micros(100));
}

fn calls(seed: u64) {
    let threads: Vec<Thread> = (0..8).map(|at| Thread::new(at, at % 2, at + 1)).collect();
    let mut ports = open(&threads).unwrap();
    let mut helpers = ports.split_off(6);
    let known = Known::default();
    thread::scope(|scope| {
        let spawned = ports.into_iter().map(|mut port| {
            let known = &known;
            scope.spawn(move || {
                let mut random = Random(seed * 64 + u64::from(port.thread().thread) + 1);
                (1..20_000).find(|_| call(&mut port, &mut random, known) == Err(CallError::Refused(Errno::Down)))
            })
        });
        let running: Vec<_> = spawned.collect();
        let mut random = Random(seed);
        for _ in 0..500 {
            helpers.iter_mut().for_each(|port| help(port, &mut random, &known));
        }
        helpers[0].shutdown().unwrap();
        let made = running.into_iter().map(|thread| thread.join().unwrap().unwrap_or(20_000));
        println!("seed {seed}: {} calls", made.sum::<u32>());
    });
    made_again(&mut helpers[1]);
}

#[test]
fn calls_at_random() {
    within(|| (1..=8).for_each(calls));
}
