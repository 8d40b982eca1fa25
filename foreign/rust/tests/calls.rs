//! Each call by itself, and each error with which it is refused.

mod common;

use balsaeuchre::{
    CallError, ChannelFlags, ConnectionId, Errno, Info, Pulse, ReceiveId, Received, Request, State, ThreadState, What,
};
use common::{CLIENT, few, made_again, message, no_channel, until, within};
use std::thread;

const fn refused<T>(errno: Errno) -> Result<T, CallError> {
    Err(CallError::Refused(errno))
}

#[test]
fn a_message_is_answered() {
    within(|| {
        let [mut server, mut client, _] = few();
        let channel = server.channel_create(ChannelFlags::NONE).unwrap();
        let to = client.connect_attach(channel).unwrap();
        thread::scope(|scope| {
            let sent = scope.spawn(|| {
                let mut buffer = *b"........";
                let answer = client.msg_send(to, b"hello", &mut buffer).unwrap();
                assert_eq!((answer.status, answer.copied, answer.bytes()), (77, 2, &b"xy"[..]));
                assert_eq!(answer.buffer, b"xy..abca");
            });
            let mut buffer = *b"-----";
            let Ok(Received::Message(request)) = server.msg_receive(channel, &mut buffer[..3]) else { panic!() };
            assert_eq!((request.copied, request.bytes(), request.buffer), (3, &b"hel"[..], &b"hel"[..]));
            let Request { rcvid, info, .. } = request;
            let connection = to;
            let expected = Info {
                process: CLIENT.into(),
                thread: 2,
                priority: 20,
                connection,
                msglen: 3,
                srcmsglen: 5,
                dstmsglen: 8,
            };
            assert_eq!((info, server.msg_info(rcvid)), (expected, Ok(expected)));
            assert_eq!(server.state(2), Ok(State { state: ThreadState::ReplyBlocked(channel), priority: 20 }));
            assert_eq!(server.msg_read(rcvid, 3, &mut buffer), Ok(&b"lo"[..]));
            assert_eq!(&buffer, b"lol--");
            assert_eq!(server.msg_read(rcvid, 9, &mut buffer), Ok(&b""[..]));
            assert_eq!((server.msg_write(rcvid, 4, b"abc"), server.msg_write(rcvid, 7, b"abc")), (Ok(3), Ok(1)));
            server.msg_reply(rcvid, 77, b"xy").unwrap();
            sent.join().unwrap();
        });
        made_again(&mut server);
    });
}

#[test]
fn a_message_that_is_short() {
    within(|| {
        let [mut server, mut client, _] = few();
        let channel = server.channel_create(ChannelFlags::NONE).unwrap();
        let to = client.connect_attach(channel).unwrap();
        thread::scope(|scope| {
            scope.spawn(|| {
                let mut buffer = *b"..";
                let answer = client.msg_send(to, b"ab", &mut buffer).unwrap();
                assert_eq!((answer.copied, answer.buffer), (2, &b"lo"[..]));
                let answer = client.msg_send(to, b"", &mut []).unwrap();
                assert_eq!((answer.status, answer.copied), (-1, 0));
            });
            let mut buffer = *b"-----";
            let Ok(Received::Message(request)) = server.msg_receive(channel, &mut buffer) else { panic!() };
            assert_eq!((request.bytes(), request.buffer), (&b"ab"[..], &b"ab---"[..]));
            server.msg_reply(request.rcvid, 0, b"long").unwrap();
            let Ok(Received::Message(request)) = server.msg_receive(channel, &mut buffer) else { panic!() };
            assert_eq!((request.bytes(), request.buffer), (&b""[..], &b"ab---"[..]));
            server.msg_reply(request.rcvid, -1, b"long").unwrap();
        });
        made_again(&mut server);
    });
}

#[test]
fn a_message_is_answered_with_a_code() {
    within(|| {
        let [mut server, mut client, _] = few();
        let channel = server.channel_create(ChannelFlags::NONE).unwrap();
        let to = client.connect_attach(channel).unwrap();
        thread::scope(|scope| {
            scope.spawn(|| {
                let mut buffer = *b"...";
                assert_eq!(client.msg_send(to, b"a", &mut buffer), Err(CallError::Code(-4)));
                assert_eq!(client.msg_send(to, b"b", &mut buffer).map(|answer| answer.status), Ok(0));
            });
            let rcvid = message(server.msg_receive(channel, &mut []));
            server.msg_error(rcvid, -4).unwrap();
            let rcvid = message(server.msg_receive(channel, &mut []));
            server.msg_error(rcvid, 0).unwrap();
        });
        made_again(&mut server);
    });
}

#[test]
fn a_message_that_is_not_held() {
    within(|| {
        let [mut server, mut client, mut other] = few();
        let channel = server.channel_create(ChannelFlags::NONE).unwrap();
        let to = client.connect_attach(channel).unwrap();
        thread::scope(|scope| {
            scope.spawn(|| client.msg_send(to, b"a", &mut []).unwrap());
            let rcvid = message(server.msg_receive(channel, &mut []));
            // The channel belongs to another process.
            assert_eq!(other.msg_reply(rcvid, 0, b""), refused(Errno::Srch));
            server.msg_reply(rcvid, 0, b"").unwrap();
            for stale in [rcvid, ReceiveId(rcvid.0 + 1), ReceiveId(0)] {
                assert_eq!(server.msg_reply(stale, 0, b""), refused(Errno::Srch));
                assert_eq!(server.msg_error(stale, 1), refused(Errno::Srch));
                assert_eq!(server.msg_read(stale, 0, &mut [0; 3]), refused(Errno::Srch));
                assert_eq!(server.msg_write(stale, 0, b"a"), refused(Errno::Srch));
                assert_eq!(server.msg_info(stale), refused(Errno::Srch));
            }
        });
        made_again(&mut server);
    });
}

#[test]
fn channels_and_connections_that_are_none() {
    within(|| {
        let [mut server, mut client, _] = few();
        let channel = server.channel_create(ChannelFlags::NONE).unwrap();
        let to = client.connect_attach(channel).unwrap();
        assert_eq!(server.channel_create(ChannelFlags(8)), refused(Errno::Inval));
        assert_eq!(client.channel_destroy(channel), refused(Errno::Inval));
        assert_eq!(server.channel_destroy(no_channel()), refused(Errno::Inval));
        assert_eq!(client.connect_attach(no_channel()), refused(Errno::Srch));
        assert_eq!(client.msg_receive(channel, &mut []), refused(Errno::Srch));
        assert_eq!(client.msg_receive_pulse(channel), refused(Errno::Srch));
        assert_eq!(server.connect_detach(to), refused(Errno::Inval));
        assert_eq!(client.connect_detach(ConnectionId(to.0 + 1)), refused(Errno::Inval));
        assert_eq!(server.msg_send(to, b"", &mut []), refused(Errno::Badf));
        assert_eq!(server.msg_send_pulse(to, 1, 0, 0), refused(Errno::Badf));
        server.channel_destroy(channel).unwrap();
        assert_eq!(client.msg_send(to, b"", &mut []), refused(Errno::Badf));
        assert_eq!(client.msg_send_pulse(to, 1, 0, 0), refused(Errno::Badf));
        assert_eq!(server.msg_receive(channel, &mut []), refused(Errno::Srch));
        client.connect_detach(to).unwrap();
        assert_eq!(client.connect_detach(to), refused(Errno::Inval));
        made_again(&mut server);
    });
}

#[test]
fn pulses_by_priority() {
    within(|| {
        let [mut server, mut client, _] = few();
        let channel = server.channel_create(ChannelFlags::NONE).unwrap();
        let to = client.connect_attach(channel).unwrap();
        client.msg_send_pulse(to, 5, 0, i32::MIN).unwrap();
        client.msg_send_pulse(to, 7, 127, 1).unwrap();
        client.msg_send_pulse(to, 5, 3, 2).unwrap();
        assert_eq!(client.msg_send_pulse(to, 5, -1, 2), refused(Errno::Inval));
        assert_eq!(client.msg_send_pulse(to, 0, 1, 2), refused(Errno::Inval));
        let pulse = |priority, code, value| Pulse { priority, what: What::User { code, value } };
        assert_eq!(server.msg_receive_pulse(channel), Ok(pulse(7, 127, 1)));
        assert_eq!(server.state(1).map(|state| state.priority), Ok(7));
        assert_eq!(server.msg_receive(channel, &mut []), Ok(Received::Pulse(pulse(5, 0, i32::MIN))));
        assert_eq!(server.msg_receive_pulse(channel), Ok(pulse(5, 3, 2)));
        made_again(&mut server);
    });
}

#[test]
fn a_pulse_before_a_message() {
    within(|| {
        let [mut server, mut client, mut other] = few();
        let channel = server.channel_create(ChannelFlags::FIXED_PRIORITY).unwrap();
        let to = client.connect_attach(channel).unwrap();
        thread::scope(|scope| {
            scope.spawn(|| client.msg_send(to, b"a", &mut []).unwrap());
            until(&mut server, 2, ThreadState::SendBlocked(channel));
            other.msg_send_pulse(to, 1, 2, 3).unwrap();
            assert!(server.msg_receive_pulse(channel).is_ok());
            let rcvid = message(server.msg_receive(channel, &mut []));
            assert_eq!(server.state(1).map(|state| state.priority), Ok(10));
            server.msg_reply(rcvid, 0, b"").unwrap();
        });
        made_again(&mut server);
    });
}

#[test]
fn priorities() {
    within(|| {
        let [mut server, mut client, mut other] = few();
        client.sched_set(3, 99).unwrap();
        assert_eq!(server.state(3), Ok(State { state: ThreadState::Ready, priority: 99 }));
        other.sched_set(3, 1).unwrap();
        assert_eq!(server.state(3).map(|state| state.priority), Ok(1));
        assert_eq!(client.sched_set(2, 0), refused(Errno::Inval));
        assert_eq!(client.sched_set(1, 5), refused(Errno::Srch));
        assert_eq!(client.sched_set(77, 5), refused(Errno::Srch));
        assert_eq!(client.state(77), refused(Errno::Srch));
        assert_eq!(client.unblock(1), refused(Errno::Srch));
        assert_eq!(client.unblock(77), refused(Errno::Srch));
        assert_eq!(client.unblock(3), Ok(()));
        assert_eq!(client.thread().priority, 20);
        made_again(&mut server);
    });
}

#[test]
fn limits() {
    within(|| {
        let [mut server, mut client, _] = few();
        let flags = ChannelFlags::DISCONNECT;
        for _ in 0..3 {
            let channels: Vec<_> = (0..64).map(|_| server.channel_create(flags).unwrap()).collect();
            assert_eq!(server.channel_create(flags), refused(Errno::Again));
            channels.into_iter().for_each(|channel| server.channel_destroy(channel).unwrap());
        }
        let channel = server.channel_create(flags).unwrap();
        for _ in 0..2 {
            let connections: Vec<_> = (0..1024).map(|_| client.connect_attach(channel).unwrap()).collect();
            assert_eq!(client.connect_attach(channel), refused(Errno::Again));
            connections.into_iter().for_each(|connection| client.connect_detach(connection).unwrap());
            assert_eq!(server.msg_receive_pulse(channel).map(|pulse| pulse.what), Ok(What::Disconnect(CLIENT.into())));
        }
        let to = client.connect_attach(channel).unwrap();
        (0..1024).for_each(|value| client.msg_send_pulse(to, 1, 1, value).unwrap());
        assert_eq!(client.msg_send_pulse(to, 1, 1, 0), refused(Errno::Again));
        // The detach would have to send a pulse.
        assert_eq!(client.connect_detach(to), refused(Errno::Again));
        made_again(&mut server);
    });
}

#[test]
fn all_calls_are_refused_after_shutdown() {
    within(|| {
        let [mut server, mut client, _] = few();
        let channel = server.channel_create(ChannelFlags::NONE).unwrap();
        let to = client.connect_attach(channel).unwrap();
        client.shutdown().unwrap();
        assert_eq!(server.channel_create(ChannelFlags::NONE), refused(Errno::Down));
        assert_eq!(server.channel_destroy(channel), refused(Errno::Down));
        assert_eq!(client.connect_attach(channel), refused(Errno::Down));
        assert_eq!(client.connect_detach(to), refused(Errno::Down));
        assert_eq!(client.msg_send(to, b"a", &mut []), refused(Errno::Down));
        assert_eq!(server.msg_receive(channel, &mut []), refused(Errno::Down));
        assert_eq!(server.msg_receive_pulse(channel), refused(Errno::Down));
        assert_eq!(server.msg_reply(ReceiveId(3), 0, b""), refused(Errno::Down));
        assert_eq!(server.msg_error(ReceiveId(3), 0), refused(Errno::Down));
        assert_eq!(server.msg_read(ReceiveId(3), 0, &mut []), refused(Errno::Down));
        assert_eq!(server.msg_write(ReceiveId(3), 0, b""), refused(Errno::Down));
        assert_eq!(server.msg_info(ReceiveId(3)), refused(Errno::Down));
        assert_eq!(client.msg_send_pulse(to, 1, 1, 1), refused(Errno::Down));
        assert_eq!(client.sched_set(2, 1), refused(Errno::Down));
        assert_eq!(client.state(1), refused(Errno::Down));
        assert_eq!(client.unblock(3), refused(Errno::Down));
        assert_eq!(client.shutdown(), refused(Errno::Down));
        made_again(&mut server);
    });
}

/// Returns the length of the message with this number, or of its receive buffer: at most `most`, or a length
/// of about 8,000 bytes.
fn spread(number: usize, most: usize) -> usize {
    match number % 5 {
        0 => number * 7919 % most,
        1 => 1023 + number % 3,
        2 => number % 20,
        3 => most,
        _ => 8000 + number * 31 % 500,
    }
}

#[test]
fn messages_of_all_lengths() {
    const MOST: usize = 60_000;
    within(|| {
        let [mut server, mut client, _] = few();
        let channel = server.channel_create(ChannelFlags::NONE).unwrap();
        let to = client.connect_attach(channel).unwrap();
        let rounds = if cfg!(feature = "record") { 100 } else { 400 };
        let byte = |number: usize, at: usize| (number * 31 + at * 7 + at / 256) as u8;
        thread::scope(|scope| {
            scope.spawn(|| {
                for number in 0..rounds {
                    let message: Vec<u8> = (0..spread(number, MOST)).map(|at| byte(number, at)).collect();
                    let mut buffer = vec![9; spread(number / 5, MOST)];
                    let answer = client.msg_send(to, &message, &mut buffer).unwrap();
                    assert_eq!(answer.bytes(), &message[..answer.copied]);
                    assert!(answer.buffer[answer.copied..].iter().all(|byte| *byte == 9));
                }
            });
            for number in 0..rounds {
                let mut buffer = vec![5; spread(number / 25, MOST)];
                let (sent, room, answer) = (spread(number, MOST), buffer.len(), spread(number / 5, MOST));
                let Ok(Received::Message(request)) = server.msg_receive(channel, &mut buffer) else { panic!() };
                assert_eq!(request.copied, sent.min(room), "message {number}");
                assert!(request.bytes().iter().enumerate().all(|(at, got)| *got == byte(number, at)));
                assert!(request.buffer[request.copied..].iter().all(|byte| *byte == 5), "message {number}");
                let info = server.msg_info(request.rcvid).unwrap();
                assert_eq!(
                    (info, info.msglen, info.srcmsglen, info.dstmsglen),
                    (request.info, sent.min(room), sent, answer)
                );
                server.msg_reply(request.rcvid, 0, request.bytes()).unwrap();
            }
        });
        made_again(&mut server);
    });
}
