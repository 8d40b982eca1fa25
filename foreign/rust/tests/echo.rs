//! Clients that send and servers that reply, in many threads.

mod common;

use balsaeuchre::{
    CallError, ChannelFlags, ChannelId, ConnectionId, Errno, Port, Pulse, Received, Request, Thread, What, open,
};
use common::{CLIENT, SERVER, made_again, within};
use std::thread;
use std::time::Duration;

/// The pulse that ends a server.
const STOP: i8 = 7;
/// The code with which a server replies to a client that is to be unblocked.
const LATE: i32 = -9;

fn answer(port: &mut Port, to: ConnectionId, request: Request<'_>) {
    let Request { rcvid, info, .. } = request;
    let bytes = request.bytes();
    assert_eq!((info.process, info.thread, info.connection), (CLIENT.into(), bytes[0], to));
    assert_eq!((info.msglen, info.srcmsglen, info.dstmsglen), (4, 4, 8));
    match port.msg_reply(rcvid, bytes[2].into(), &[bytes[0], bytes[1] ^ 0xff, bytes[2], bytes[3]]) {
        Ok(()) | Err(CallError::Refused(Errno::Srch)) => (),
        other => panic!("{other:?}"),
    }
}

fn serve(port: &mut Port, channel: ChannelId, to: ConnectionId) -> usize {
    let mut buffer = [0; 16];
    let mut answered = 0;
    loop {
        match port.msg_receive(channel, &mut buffer).unwrap() {
            Received::Message(request) => {
                answered += 1;
                answer(port, to, request);
            }
            Received::Pulse(Pulse { what: What::Unblock(rcvid), .. }) => match port.msg_error(rcvid, LATE) {
                Ok(()) | Err(CallError::Refused(Errno::Srch)) => (),
                other => panic!("{other:?}"),
            },
            Received::Pulse(Pulse { what: What::User { code: STOP, .. }, .. }) => return answered,
            other => panic!("{other:?}"),
        }
    }
}

/// Sends `rounds` times, each time with a different timeout if `times` is set. Returns the number of sends
/// that timed out.
fn send(port: &mut Port, to: ConnectionId, rounds: usize, times: bool) -> usize {
    let me = port.thread().thread;
    let mut late = 0;
    for round in 0..rounds {
        let sent = [me, round as u8, (round >> 8) as u8, 5];
        let mut buffer = [0; 8];
        if times {
            port.timeout(Duration::from_nanos((round as u64 * 7919) % 60_000 + 1));
        }
        match port.msg_send(to, &sent, &mut buffer) {
            Ok(answer) => {
                assert_eq!((answer.status, answer.copied), (sent[2].into(), 4));
                assert_eq!(buffer, [me, sent[1] ^ 0xff, sent[2], 5, 0, 0, 0, 0]);
            }
            Err(CallError::TimedOut | CallError::Code(LATE)) if times => late += 1,
            other => panic!("{other:?}"),
        }
    }
    late
}

fn echo(clients: usize, servers: usize, rounds: usize, times: bool) {
    let thread = |at: usize| {
        let process = if at < servers { SERVER } else { CLIENT };
        Thread::new(at as u8, process, at as u8 % 7 + 1)
    };
    let threads: Vec<Thread> = (0..=servers + clients).map(thread).collect();
    let mut ports = open(&threads).unwrap();
    let mut last = ports.pop().unwrap();
    let others = ports.split_off(servers);
    let channel = ports[0].channel_create(ChannelFlags::UNBLOCK).unwrap();
    let to = last.connect_attach(channel).unwrap();
    let (answered, late): (usize, usize) = thread::scope(|scope| {
        let server = |mut port: Port| scope.spawn(move || serve(&mut port, channel, to));
        let serving: Vec<_> = ports.into_iter().map(server).collect();
        let client = |mut port: Port| scope.spawn(move || send(&mut port, to, rounds, times));
        let sending: Vec<_> = others.into_iter().map(client).collect();
        let late = sending.into_iter().map(|thread| thread.join().unwrap()).sum();
        (0..servers).for_each(|_| last.msg_send_pulse(to, 1, STOP, 0).unwrap());
        (serving.into_iter().map(|thread| thread.join().unwrap()).sum(), late)
    });
    println!("{clients} clients, {servers} servers: {late} late");
    if !times {
        assert_eq!((answered, late), (clients * rounds, 0));
    }
    made_again(&mut last);
}

/// Returns the number of round trips of a test, summed over all clients.
fn rounds() -> usize {
    std::env::var("ROUNDS").map_or(4000, |word| word.parse().unwrap())
}

#[test]
fn echo_1_1() {
    within(|| echo(1, 1, rounds(), false));
}

#[test]
fn echo_8_4() {
    within(|| echo(8, 4, rounds() / 8, false));
}

#[test]
fn echo_32_16() {
    within(|| echo(32, 16, rounds() / 32, false));
}

#[test]
fn echo_8_4_with_timeouts() {
    within(|| echo(8, 4, rounds() / 8, true));
}

#[test]
fn echo_40_8_with_timeouts() {
    within(|| echo(40, 8, rounds() / 40, true));
}
