//! A server and its clients with the kernel by itself: each call, with its completions.
//! exchange          prints the completions of a run
//! exchange --time N times N rounds of Send, Receive and Reply

use balsaeuchre::kernel::{Call, Ending, Endings, Kernel, Mark};
use balsaeuchre::{
    ChannelFlags, ChannelId, ConnectionId, Errno, Info, Pulse, ReceiveId, State, Thread, ThreadState, What,
};
use std::error::Error;
use std::time::Instant;

const SERVER: u8 = 1;
const CLIENT: u8 = 2;
const OTHER: u8 = 3;

fn name(errno: Errno) -> String {
    format!("{errno:?}").to_lowercase()
}

fn pulse_text(what: What) -> String {
    match what {
        What::User { code, value } => format!("code {code}, value {value}"),
        What::Unblock(ReceiveId(rcvid)) => format!("unblock {rcvid}"),
        What::Disconnect(process) => format!("disconnect {process}"),
    }
}

fn state_text(state: ThreadState) -> String {
    match state {
        ThreadState::Ready => "ready, channel 0".to_string(),
        ThreadState::SendBlocked(ChannelId(chid)) => format!("send-blocked, channel {chid}"),
        ThreadState::ReceiveBlocked(ChannelId(chid)) => format!("receive-blocked, channel {chid}"),
        ThreadState::ReplyBlocked(ChannelId(chid)) => format!("reply-blocked, channel {chid}"),
    }
}

fn info_text(info: Info) -> String {
    let Info { process, thread, priority, connection: ConnectionId(coid), msglen, srcmsglen, dstmsglen } = info;
    format!(
        "thread {thread} of process {process}, priority {priority}, connection {coid}, {msglen} of {srcmsglen} bytes, \
         room for {dstmsglen}"
    )
}

fn mark_text(mark: Mark) -> String {
    match mark {
        Mark::Done => "done".to_string(),
        Mark::Failed(errno) => format!("failed {}", name(errno)),
        Mark::Channel(ChannelId(chid)) => format!("channel {chid}"),
        Mark::Connection(ConnectionId(coid)) => format!("connection {coid}"),
        Mark::Replied { status, copied } => format!("replied {status}, {copied} copied"),
        Mark::Message { rcvid: ReceiveId(rcvid), info } => format!("message {rcvid}, {} copied", info.msglen),
        Mark::Errored(code) => format!("errored {code}"),
        Mark::Count(count) => format!("{count} copied"),
        Mark::Info(info) => info_text(info),
        Mark::Pulse { number, pulse: Pulse { priority, what } } => {
            format!("pulse of call {number}, priority {priority}, {}", pulse_text(what))
        }
        Mark::State(State { state, priority }) => format!("{}, priority {priority}", state_text(state)),
    }
}

/// Prints the completions of the event, or the error of the call. Returns the result of the first completion.
fn show(what: &str, event: Result<Endings<'_>, Errno>) -> Option<Mark> {
    let endings = match event {
        Ok(endings) => endings,
        Err(errno) => {
            println!("{what}: no event, {}", name(errno));
            return None;
        }
    };
    println!("{what}");
    for Ending { call, thread, mark, buffer } in endings.iter() {
        print!("  call {call} of thread {thread}: {}", mark_text(mark));
        if !buffer.is_empty() {
            print!(" '{}'", String::from_utf8_lossy(buffer));
        }
        println!();
    }
    endings.iter().next().map(|ending| ending.mark)
}

fn rcvid_of(mark: Option<Mark>) -> ReceiveId {
    match mark {
        Some(Mark::Message { rcvid, .. }) => rcvid,
        other => panic!("no message: {other:?}"),
    }
}

fn show_messages(k: &mut Kernel, chid: ChannelId, coid: ConnectionId) {
    show("send", k.call(CLIENT, Call::Send { coid, message: b"hello", reply_buffer: b"........" }));
    show("state", k.call(SERVER, Call::State { thread: CLIENT }));
    let rcvid = rcvid_of(show("receive", k.call(SERVER, Call::Receive { chid, buffer: b"---" })));
    show("info", k.call(SERVER, Call::Info { rcvid }));
    show("read", k.call(SERVER, Call::Read { rcvid, offset: 3, buffer: b"--" }));
    show("write", k.call(SERVER, Call::Write { rcvid, offset: 2, bytes: b"abc" }));
    show("reply", k.call(SERVER, Call::Reply { rcvid, status: 7, bytes: b"w" }));
    show("receive", k.call(SERVER, Call::Receive { chid, buffer: b"------" }));
    let rcvid = rcvid_of(show("send", k.call(CLIENT, Call::Send { coid, message: b"again", reply_buffer: b"...." })));
    show("unblock", k.call(OTHER, Call::Unblock { thread: CLIENT }));
    show("receive pulse", k.call(SERVER, Call::ReceivePulse { chid }));
    show("error", k.call(SERVER, Call::Error { rcvid, code: -4 }));
}

fn show_pulses(k: &mut Kernel, chid: ChannelId, coid: ConnectionId) {
    show("pulse", k.call(OTHER, Call::Pulse { coid, priority: 33, code: 5, value: -6 }));
    show("receive pulse", k.call(SERVER, Call::ReceivePulse { chid }));
    show("priority set", k.call(CLIENT, Call::PrioritySet { thread: OTHER, priority: 40 }));
    show("state", k.call(SERVER, Call::State { thread: OTHER }));
    show("connect detach", k.call(CLIENT, Call::ConnectDetach { coid }));
    show("receive", k.call(SERVER, Call::Receive { chid, buffer: b"" }));
    show("channel destroy", k.call(SERVER, Call::ChannelDestroy { chid }));
    let Some(Mark::Channel(chid)) =
        show("channel create", k.call(SERVER, Call::ChannelCreate { flags: ChannelFlags::NONE }))
    else {
        panic!("no channel");
    };
    show("receive", k.call(SERVER, Call::Receive { chid, buffer: b"++" }));
    show("shutdown", k.call(CLIENT, Call::Shutdown));
}

fn show_run(k: &mut Kernel) {
    let told = ChannelFlags::UNBLOCK | ChannelFlags::DISCONNECT;
    let Some(Mark::Channel(chid)) = show("channel create", k.call(SERVER, Call::ChannelCreate { flags: told })) else {
        panic!("no channel");
    };
    let Some(Mark::Connection(coid)) = show("connect attach", k.call(CLIENT, Call::ConnectAttach { chid })) else {
        panic!("no connection");
    };
    show_messages(k, chid, coid);
    show("no such thread", k.call(9, Call::Shutdown));
    show("no such priority", k.call(CLIENT, Call::Pulse { coid, priority: 0, code: 5, value: -6 }));
    show_pulses(k, chid, coid);
}

fn time_rounds(k: &mut Kernel, rounds: u32) -> Result<(), Errno> {
    k.call(SERVER, Call::ChannelCreate { flags: ChannelFlags::NONE })?;
    k.call(CLIENT, Call::ConnectAttach { chid: ChannelId(1) })?;
    let mut least = f64::MAX;
    for _ in 0..5 {
        let start = Instant::now();
        for _ in 0..rounds {
            k.call(CLIENT, Call::Send { coid: ConnectionId(2), message: &[1; 4], reply_buffer: &[0; 8] })?;
            let received = k.call(SERVER, Call::Receive { chid: ChannelId(1), buffer: &[0; 16] })?;
            let rcvid = rcvid_of(received.iter().next().map(|ending| ending.mark));
            assert_eq!(k.call(SERVER, Call::Reply { rcvid, status: 0, bytes: &[] })?.iter().len(), 2);
        }
        least = least.min(start.elapsed().as_secs_f64());
    }
    println!("Rust: {rounds} rounds, {:.1} ns a call", least * 1e9 / (3.0 * f64::from(rounds)));
    Ok(())
}

fn main() -> Result<(), Box<dyn Error>> {
    let threads = [Thread::new(SERVER, 1, 10), Thread::new(CLIENT, 2, 20), Thread::new(OTHER, 2, 5)];
    let mut kernel = Kernel::new(&threads)?;
    let arguments: Vec<String> = std::env::args().collect();
    match arguments.get(1).map(String::as_str) {
        Some("--time") => {
            let rounds = arguments.get(2).and_then(|rounds| rounds.parse().ok()).unwrap_or(100_000);
            time_rounds(&mut kernel, rounds)?;
        }
        _ => show_run(&mut kernel),
    }
    Ok(())
}
