//! Calls that wait and are cancelled, and ports whose threads change or panic.

mod common;

use balsaeuchre::{CallError, ChannelFlags, Errno, Port, Pulse, Received, Thread, ThreadState, What, open};
use common::{CLIENT, SERVER, few, made_again, message, until, within};
use std::sync::Mutex;
use std::sync::atomic::{AtomicUsize, Ordering};
use std::thread;
use std::time::{Duration, Instant};

const fn cut<T>(errno: Errno) -> Result<T, CallError> {
    Err(CallError::Cancelled(errno))
}

const MILLI: Duration = Duration::from_millis(1);

#[test]
fn timed_out_while_send_blocked() {
    within(|| {
        let [mut server, mut client, _] = few();
        let channel = server.channel_create(ChannelFlags::UNBLOCK).unwrap();
        let to = client.connect_attach(channel).unwrap();
        let start = Instant::now();
        assert_eq!(client.timeout(20 * MILLI).msg_send(to, b"a", &mut []), Err(CallError::TimedOut));
        assert!(start.elapsed() >= 20 * MILLI);
        assert_eq!(client.timeout(Duration::ZERO).msg_send(to, b"a", &mut []), Err(CallError::TimedOut));
        made_again(&mut server);
    });
}

#[test]
fn timed_out_while_receive_blocked() {
    within(|| {
        let [mut server, mut client, _] = few();
        let channel = server.channel_create(ChannelFlags::NONE).unwrap();
        assert_eq!(server.timeout(MILLI).msg_receive(channel, &mut []), Err(CallError::TimedOut));
        assert_eq!(server.timeout(MILLI).msg_receive_pulse(channel), Err(CallError::TimedOut));
        // Only the next call that can block takes the timeout.
        server.timeout(MILLI);
        server.state(1).unwrap();
        assert_eq!(server.msg_receive(channel, &mut []), Err(CallError::TimedOut));
        let to = client.connect_attach(channel).unwrap();
        server.timeout(MILLI);
        client.msg_send_pulse(to, 1, 2, 3).unwrap();
        assert!(server.msg_receive(channel, &mut []).is_ok());
        thread::scope(|scope| {
            let received = scope.spawn(|| server.msg_receive(channel, &mut []).is_ok());
            thread::sleep(20 * MILLI);
            client.msg_send_pulse(to, 1, 2, 3).unwrap();
            assert!(received.join().unwrap());
        });
        made_again(&mut client);
    });
}

#[test]
fn timed_out_while_reply_blocked() {
    within(|| {
        let [mut server, mut client, mut other] = few();
        let channel = server.channel_create(ChannelFlags::NONE).unwrap();
        let to = client.connect_attach(channel).unwrap();
        thread::scope(|scope| {
            let sent = scope.spawn(|| {
                until(&mut other, 1, ThreadState::ReceiveBlocked(channel));
                client.timeout(20 * MILLI).msg_send(to, b"a", &mut []).err()
            });
            let rcvid = message(server.msg_receive(channel, &mut []));
            assert_eq!(sent.join().unwrap(), Some(CallError::TimedOut));
            assert_eq!(server.msg_reply(rcvid, 0, b""), Err(CallError::Refused(Errno::Srch)));
        });
        made_again(&mut server);
    });
}

#[test]
fn the_server_is_told_of_a_timeout() {
    within(|| {
        let [mut server, mut client, mut other] = few();
        let channel = server.channel_create(ChannelFlags::UNBLOCK).unwrap();
        let to = client.connect_attach(channel).unwrap();
        thread::scope(|scope| {
            let sent = scope.spawn(|| {
                until(&mut other, 1, ThreadState::ReceiveBlocked(channel));
                client.timeout(20 * MILLI).msg_send(to, b"a", &mut [0; 2]).map(|answer| answer.status)
            });
            let rcvid = message(server.msg_receive(channel, &mut []));
            assert_eq!(server.msg_receive_pulse(channel), Ok(Pulse { priority: 20, what: What::Unblock(rcvid) }));
            // The client stays blocked until the reply.
            thread::sleep(5 * MILLI);
            assert_eq!(server.state(2).map(|state| state.state), Ok(ThreadState::ReplyBlocked(channel)));
            server.msg_reply(rcvid, 6, b"").unwrap();
            assert_eq!(sent.join().unwrap(), Ok(6));
        });
        made_again(&mut server);
    });
}

/// The queue is full at first, so that the pulse of a timeout is refused.
#[test]
fn a_timeout_is_tried_again() {
    within(|| {
        let [mut server, mut client, mut other] = few();
        let channel = server.channel_create(ChannelFlags::UNBLOCK).unwrap();
        let to = client.connect_attach(channel).unwrap();
        (0..1024).for_each(|value| other.msg_send_pulse(to, 1, 1, value).unwrap());
        thread::scope(|scope| {
            let sent = scope.spawn(|| client.timeout(1000 * MILLI).msg_send(to, b"a", &mut []).err());
            until(&mut server, 2, ThreadState::SendBlocked(channel));
            let rcvid = message(server.msg_receive(channel, &mut []));
            thread::sleep(1100 * MILLI);
            // There is room again when the server has received other pulses.
            while server.msg_receive_pulse(channel).unwrap().what != What::Unblock(rcvid) {}
            server.msg_error(rcvid, 5).unwrap();
            assert_eq!(sent.join().unwrap(), Some(CallError::Code(5)));
        });
        made_again(&mut server);
    });
}

#[test]
fn unblocked_by_another_thread() {
    within(|| {
        let [mut server, mut client, mut other] = few();
        let channel = server.channel_create(ChannelFlags::NONE).unwrap();
        let to = client.connect_attach(channel).unwrap();
        thread::scope(|scope| {
            let sent = scope.spawn(|| client.timeout(1000 * MILLI * 60).msg_send(to, b"a", &mut []).err());
            until(&mut other, 2, ThreadState::SendBlocked(channel));
            assert_eq!(server.unblock(2), Err(CallError::Refused(Errno::Srch)));
            other.unblock(2).unwrap();
            assert_eq!(sent.join().unwrap(), Some(CallError::Cancelled(Errno::Intr)));
        });
        made_again(&mut server);
    });
}

#[test]
fn detached_under() {
    within(|| {
        let [mut server, mut client, mut other] = few();
        let channel = server.channel_create(ChannelFlags::DISCONNECT).unwrap();
        let to = client.connect_attach(channel).unwrap();
        thread::scope(|scope| {
            let sent = scope.spawn(|| client.msg_send(to, b"a", &mut []).err());
            until(&mut other, 2, ThreadState::SendBlocked(channel));
            other.connect_detach(to).unwrap();
            assert_eq!(sent.join().unwrap(), Some(CallError::Cancelled(Errno::Badf)));
        });
        assert_eq!(
            server.msg_receive_pulse(channel),
            Ok(Pulse { priority: 30, what: What::Disconnect(CLIENT.into()) })
        );
        let to = client.connect_attach(channel).unwrap();
        thread::scope(|scope| {
            let sent = scope.spawn(|| client.msg_send(to, b"a", &mut []).err());
            let rcvid = message(server.msg_receive(channel, &mut []));
            other.connect_detach(to).unwrap();
            assert_eq!(sent.join().unwrap(), Some(CallError::Cancelled(Errno::Badf)));
            assert_eq!(server.msg_reply(rcvid, 0, b""), Err(CallError::Refused(Errno::Srch)));
        });
        made_again(&mut server);
    });
}

/// Returns the ports of this many servers and clients, and one more port of the servers' process.
fn many(servers: usize, clients: usize) -> (Vec<Port>, Vec<Port>, Port) {
    let thread = |at: usize| Thread::new(at as u8 + 1, if at <= servers { SERVER } else { CLIENT }, 9);
    let threads: Vec<Thread> = (0..=servers + clients).map(thread).collect();
    let mut ports = open(&threads).unwrap();
    let clients = ports.split_off(servers + 1);
    let last = ports.pop().unwrap();
    (ports, clients, last)
}

/// Cancels calls in each state in which a call waits, by `end`.
fn ends_all(end: impl FnOnce(&mut Port, balsaeuchre::ChannelId)) {
    let (servers, mut clients, mut last) = many(3, 6);
    let flags = ChannelFlags::UNBLOCK | ChannelFlags::DISCONNECT;
    let (busy, idle) = (last.channel_create(flags).unwrap(), last.channel_create(flags).unwrap());
    let to = clients[0].connect_attach(busy).unwrap();
    thread::scope(|scope| {
        let send = |port: &mut Port| {
            let mut buffer = [7; 40];
            let ended = port.msg_send(to, b"a", &mut buffer).err();
            assert_eq!(buffer, [7; 40]);
            ended
        };
        let senders: Vec<_> = clients.into_iter().map(|mut port| scope.spawn(move || send(&mut port))).collect();
        for client in 5..=10 {
            until(&mut last, client, ThreadState::SendBlocked(busy));
        }
        message(last.msg_receive(busy, &mut []));
        message(last.msg_receive(busy, &mut []));
        let receivers: Vec<_> =
            servers.into_iter().map(|mut port| scope.spawn(move || port.msg_receive(idle, &mut []).err())).collect();
        for server in 1..=3 {
            until(&mut last, server, ThreadState::ReceiveBlocked(idle));
        }
        // Waits until all are asleep.
        thread::sleep(20 * MILLI);
        end(&mut last, busy);
        senders
            .into_iter()
            .for_each(|sender| assert_eq!(sender.join().unwrap(), Some(CallError::Cancelled(Errno::Srch))));
        if last.state(1).is_ok() {
            last.channel_destroy(idle).unwrap();
        }
        receivers
            .into_iter()
            .for_each(|server| assert_eq!(server.join().unwrap(), Some(CallError::Cancelled(Errno::Srch))));
    });
    made_again(&mut last);
}

#[test]
fn destroyed_under_many() {
    within(|| ends_all(|port, channel| port.channel_destroy(channel).unwrap()));
}

#[test]
fn shut_down_under_many() {
    within(|| ends_all(|port, _| port.shutdown().unwrap()));
}

#[test]
fn a_port_goes_to_another_thread() {
    within(|| {
        let [mut server, mut client, mut other] = few();
        let channel = server.channel_create(ChannelFlags::NONE).unwrap();
        let to = client.connect_attach(channel).unwrap();
        thread::scope(|scope| {
            let serving = scope.spawn(|| {
                for round in 0..400 {
                    let rcvid = message(server.msg_receive(channel, &mut []));
                    if round % 4 == 0 {
                        thread::sleep(MILLI / 4);
                    }
                    server.msg_reply(rcvid, 1, b"").unwrap();
                }
            });
            let mut passed = client;
            for _ in 0..200 {
                let sent = scope.spawn(move || {
                    passed.msg_send(to, b"x", &mut []).unwrap();
                    passed
                });
                passed = sent.join().unwrap();
                other.msg_send(to, b"y", &mut []).unwrap();
            }
            serving.join().unwrap();
        });
        made_again(&mut other);
    });
}

/// A port is passed on at once. At that time the thread that completed the port's call may still be about to
/// wake the thread that had the port. So these threads often wake for no reason.
#[test]
fn a_port_is_passed_on_while_it_is_woken() {
    within(|| {
        let [mut server, mut client, _] = few();
        let channel = server.channel_create(ChannelFlags::NONE).unwrap();
        let to = client.connect_attach(channel).unwrap();
        // The two threads take turns. ThreadSanitizer sees only the part of a lock that is inlined here, so
        // no thread sleeps for a lock.
        let (client, turn) = (Mutex::new(client), AtomicUsize::new(0));
        let send = |odd: usize| {
            for round in 0..150 {
                while turn.load(Ordering::Acquire) != 2 * round + odd {
                    thread::yield_now();
                }
                client.try_lock().unwrap().msg_send(to, b"x", &mut []).map(drop).unwrap();
                turn.fetch_add(1, Ordering::Release);
            }
        };
        thread::scope(|scope| {
            let serving = scope.spawn(|| {
                for _ in 0..300 {
                    let rcvid = message(server.msg_receive(channel, &mut []));
                    thread::sleep(MILLI / 10);
                    server.msg_reply(rcvid, 1, b"").unwrap();
                }
            });
            let senders = [0, 1].map(|odd| scope.spawn(move || send(odd)));
            while !senders.iter().all(|sender| sender.is_finished()) {
                senders.iter().for_each(|sender| sender.thread().unpark());
                thread::yield_now();
            }
            senders.into_iter().for_each(|sender| sender.join().unwrap());
            serving.join().unwrap();
        });
        made_again(&mut client.into_inner().unwrap());
    });
}

#[test]
fn a_panic_ends_all() {
    within(|| {
        let [mut server, mut client, mut other] = few();
        let channel = server.channel_create(ChannelFlags::NONE).unwrap();
        let to = client.connect_attach(channel).unwrap();
        let serving = thread::spawn(move || {
            message(server.msg_receive(channel, &mut []));
            until(&mut server, 3, ThreadState::SendBlocked(channel));
            panic!("on purpose");
        });
        thread::scope(|scope| {
            let sent = scope.spawn(|| client.msg_send(to, b"x", &mut []).err());
            until(&mut other, 2, ThreadState::ReplyBlocked(channel));
            assert_eq!(other.msg_send(to, b"x", &mut []), cut(Errno::Srch));
            assert_eq!(sent.join().unwrap(), Some(CallError::Cancelled(Errno::Srch)));
        });
        assert!(serving.join().is_err());
        assert_eq!(client.msg_send(to, b"x", &mut []), Err(CallError::Refused(Errno::Down)));
        made_again(&mut client);
    });
}

#[test]
fn a_port_that_is_dropped_ends_nothing() {
    within(|| {
        let [server, mut client, other] = few();
        drop((server, other));
        let channel = client.channel_create(ChannelFlags::NONE).unwrap();
        let to = client.connect_attach(channel).unwrap();
        client.msg_send_pulse(to, 1, 1, 1).unwrap();
        assert!(matches!(client.msg_receive(channel, &mut []), Ok(Received::Pulse(_))));
    });
}

#[test]
fn two_kernels_in_one_program() {
    within(|| {
        let ([mut server, mut client, _], [mut twin, mut another, _]) = (few(), few());
        let channel = server.channel_create(ChannelFlags::NONE).unwrap();
        assert_eq!(another.connect_attach(channel), Err(CallError::Refused(Errno::Srch)));
        let to = client.connect_attach(channel).unwrap();
        twin.shutdown().unwrap();
        client.msg_send_pulse(to, 1, 1, 1).unwrap();
        assert!(server.msg_receive_pulse(channel).is_ok());
    });
}

fn is_send<T: Send>() {}

#[test]
fn ports_and_kernels_may_be_sent() {
    is_send::<Port>();
    is_send::<balsaeuchre::kernel::Kernel>();
}
