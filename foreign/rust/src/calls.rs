//! The calls, and a method for each under QNX Neutrino's name. A method waits for the call's completion, and
//! returns its result.

use crate::errors::{CallError, Result};
use crate::ids::{ChannelFlags, ChannelId, ConnectionId, ReceiveId};
use crate::kernel::{Mark, RawRequest, kind};
use crate::port::Port;
use crate::results::{Answer, Info, Pulse, Received, Request, State};
use crate::shared::FRONT;

/// A call. Its bytes and its buffer are borrowed, and the kernel copies them. Offsets are in bytes.
#[derive(Clone, Copy, Debug)]
#[allow(missing_docs)] // the names of the fields say enough
pub enum Call<'a> {
    /// Creates a channel that the caller's process owns.
    ChannelCreate { flags: ChannelFlags },
    /// Attaches the caller's process to an open channel of any process.
    ConnectAttach { chid: ChannelId },
    /// Sends a message over a connection, and blocks until the reply is copied into the reply buffer.
    Send { coid: ConnectionId, message: &'a [u8], reply_buffer: &'a [u8] },
    /// Receives a message or a pulse from a channel, or blocks until one is sent. A message is copied into
    /// the buffer.
    Receive { chid: ChannelId, buffer: &'a [u8] },
    /// Replies to a held message, with a status and bytes.
    Reply { rcvid: ReceiveId, status: i64, bytes: &'a [u8] },
    /// Replies to a held message with a code and no bytes. The code 0 is a reply of status 0.
    Error { rcvid: ReceiveId, code: i32 },
    /// Copies a held message, from the offset on, to the front of the buffer.
    Read { rcvid: ReceiveId, offset: usize, buffer: &'a [u8] },
    /// Copies bytes over the reply buffer of a held message's sender, from the offset on.
    Write { rcvid: ReceiveId, offset: usize, bytes: &'a [u8] },
    /// Returns the data of a held message, as an `Info`.
    Info { rcvid: ReceiveId },
    /// Receives a pulse from a channel, or blocks until one is sent. It never takes a message.
    ReceivePulse { chid: ChannelId },
    /// Sends a pulse over a connection, with a code from 0 to 127 and a value. It never blocks.
    Pulse { coid: ConnectionId, priority: u8, code: i8, value: i32 },
    /// Sets the priority of a thread of the caller's process, which may be the caller.
    PrioritySet { thread: u8, priority: u8 },
    /// Returns a thread's state and priority.
    State { thread: u8 },
    /// Destroys a channel of the caller's process, and cancels each call that is blocked on it.
    ChannelDestroy { chid: ChannelId },
    /// Cancels every open call; every later call fails.
    Shutdown,
    /// Cancels the call in which a thread of the caller's process is blocked, or sends its server a pulse.
    Unblock { thread: u8 },
    /// Detaches a connection of the caller's process, and cancels each Send over it.
    ConnectDetach { coid: ConnectionId },
}

impl<'a> Call<'a> {
    /// Returns the request for the library, the bytes that the call sends, and its buffer.
    #[inline(always)]
    pub(crate) fn raw(self, thread: u8) -> (RawRequest, &'a [u8], &'a [u8]) {
        let of = |kind, id| RawRequest { kind, thread, id, ..RawRequest::default() };
        match self {
            Call::ChannelCreate { flags } => (RawRequest { flags: flags.0, ..of(kind::CHANNEL_CREATE, 0) }, &[], &[]),
            Call::ConnectAttach { chid } => (of(kind::CONNECT_ATTACH, chid.0), &[], &[]),
            Call::Send { coid, message, reply_buffer } => (of(kind::SEND, coid.0), message, reply_buffer),
            Call::Receive { chid, buffer } => (of(kind::RECEIVE, chid.0), &[], buffer),
            Call::Reply { rcvid, status, bytes } => (RawRequest { status, ..of(kind::REPLY, rcvid.0) }, bytes, &[]),
            Call::Error { rcvid, code } => (RawRequest { code, ..of(kind::ERROR, rcvid.0) }, &[], &[]),
            Call::Read { rcvid, offset, buffer } => (RawRequest { offset, ..of(kind::READ, rcvid.0) }, &[], buffer),
            Call::Write { rcvid, offset, bytes } => (RawRequest { offset, ..of(kind::WRITE, rcvid.0) }, bytes, &[]),
            Call::Info { rcvid } => (of(kind::INFO, rcvid.0), &[], &[]),
            Call::ReceivePulse { chid } => (of(kind::RECEIVE_PULSE, chid.0), &[], &[]),
            Call::Pulse { coid, priority, code, value } => {
                (RawRequest { priority, pulse_code: code, value, ..of(kind::PULSE, coid.0) }, &[], &[])
            }
            Call::PrioritySet { thread: target, priority } => {
                (RawRequest { target, priority, ..of(kind::PRIORITY_SET, 0) }, &[], &[])
            }
            Call::State { thread: target } => (RawRequest { target, ..of(kind::STATE, 0) }, &[], &[]),
            Call::ChannelDestroy { chid } => (of(kind::CHANNEL_DESTROY, chid.0), &[], &[]),
            Call::Shutdown => (of(kind::SHUTDOWN, 0), &[], &[]),
            Call::Unblock { thread: target } => (RawRequest { target, ..of(kind::UNBLOCK, 0) }, &[], &[]),
            Call::ConnectDetach { coid } => (of(kind::CONNECT_DETACH, coid.0), &[], &[]),
        }
    }
}

/// Reads a value from a result that has the expected kind. A result of another kind is `Unexpected`.
macro_rules! result {
    ($mark:expr, $pattern:pat => $result:expr) => {
        if let $pattern = $mark { Ok($result) } else { Err(CallError::Unexpected) }
    };
}

/// Channels and connections.
impl Port {
    /// Creates a channel that the caller's process owns (`ChannelCreate`). Refused with `Inval` if a flag is
    /// unknown, and `Again` at 64 open channels.
    pub fn channel_create(&mut self, flags: ChannelFlags) -> Result<ChannelId> {
        result!(self.call(Call::ChannelCreate { flags })?, Mark::Channel(chid) => chid)
    }

    /// Destroys a channel of the caller's process, and cancels each call that is blocked on it
    /// (`ChannelDestroy`). Refused with `Inval` if the channel isn't open or is another process's.
    pub fn channel_destroy(&mut self, chid: ChannelId) -> Result<()> {
        result!(self.call(Call::ChannelDestroy { chid })?, Mark::Done => ())
    }

    /// Attaches the caller's process to a channel of any process (`ConnectAttach`). Refused with `Srch` if
    /// the channel isn't open, and `Again` at 1,024 connections.
    pub fn connect_attach(&mut self, chid: ChannelId) -> Result<ConnectionId> {
        result!(self.call(Call::ConnectAttach { chid })?, Mark::Connection(coid) => coid)
    }

    /// Detaches a connection of the caller's process, and cancels each send over it (`ConnectDetach`).
    /// Refused with `Inval` if the connection isn't live or is another process's, and `Again` if the detach
    /// has to send a pulse and 1,024 pulses are queued on the channel.
    pub fn connect_detach(&mut self, coid: ConnectionId) -> Result<()> {
        result!(self.call(Call::ConnectDetach { coid })?, Mark::Done => ())
    }
}

/// Messages.
impl Port {
    /// Sends a message over a connection, and sleeps until the reply is copied into the buffer (`MsgSend`).
    /// The whole message and the whole buffer are copied. Refused with `Badf` if the connection isn't live,
    /// is another process's, or its channel isn't open.
    pub fn msg_send<'b>(&mut self, coid: ConnectionId, message: &[u8], buffer: &'b mut [u8]) -> Result<Answer<'b>> {
        let mark = self.make(true, buffer, |reply_buffer| Call::Send { coid, message, reply_buffer })?;
        result!(mark, Mark::Replied { status, copied } => Answer { status, copied, buffer })
    }

    /// Receives a message, into the buffer, or a pulse from a channel, and sleeps until there is one
    /// (`MsgReceive`). Refused with `Srch` if the channel isn't open or is another process's.
    pub fn msg_receive<'b>(&mut self, chid: ChannelId, buffer: &'b mut [u8]) -> Result<Received<'b>> {
        match self.make(true, buffer, |buffer| Call::Receive { chid, buffer: &buffer[..buffer.len().min(FRONT)] })? {
            Mark::Message { rcvid, info } => {
                Ok(Received::Message(Request { rcvid, copied: info.msglen, buffer, info }))
            }
            mark => result!(mark, Mark::Pulse { pulse, .. } => Received::Pulse(pulse)),
        }
    }

    /// Replies to a held message with a status and bytes (`MsgReply`). The sender gets the bytes that fit
    /// into its buffer. Refused with `Srch` if the message isn't held, or its channel is another process's.
    pub fn msg_reply(&mut self, rcvid: ReceiveId, status: i64, bytes: &[u8]) -> Result<()> {
        result!(self.call(Call::Reply { rcvid, status, bytes })?, Mark::Done => ())
    }

    /// Replies to a held message with a code and no bytes (`MsgError`). The code 0 is a reply of status 0.
    /// Refused like `msg_reply`.
    pub fn msg_error(&mut self, rcvid: ReceiveId, code: i32) -> Result<()> {
        result!(self.call(Call::Error { rcvid, code })?, Mark::Done => ())
    }

    /// Reads a held message into the buffer, starting at the offset (`MsgRead`). Returns the bytes that were
    /// read. Refused like `msg_reply`.
    pub fn msg_read<'b>(&mut self, rcvid: ReceiveId, offset: usize, buffer: &'b mut [u8]) -> Result<&'b [u8]> {
        let mark = self.make(false, buffer, |buffer| Call::Read { rcvid, offset, buffer })?;
        result!(mark, Mark::Count(count) => &buffer[..count])
    }

    /// Writes bytes into the reply buffer of a held message's sender, starting at the offset (`MsgWrite`).
    /// Returns the number of bytes for which there was room. Refused like `msg_reply`.
    pub fn msg_write(&mut self, rcvid: ReceiveId, offset: usize, bytes: &[u8]) -> Result<usize> {
        result!(self.call(Call::Write { rcvid, offset, bytes })?, Mark::Count(count) => count)
    }

    /// Returns the data of a held message: its sender, its priority, its connection, and its lengths in bytes
    /// (`MsgInfo`). Refused like `msg_reply`.
    pub fn msg_info(&mut self, rcvid: ReceiveId) -> Result<Info> {
        result!(self.call(Call::Info { rcvid })?, Mark::Info(info) => info)
    }
}

/// Pulses.
impl Port {
    /// Sends a pulse with a priority, 1 to 255, a code, 0 to 127, and a value over a connection, and doesn't
    /// wait (`MsgSendPulse`). Refused with `Badf` like `msg_send`, `Inval` if the code or the priority is out
    /// of range, and `Again` if 1,024 pulses are queued on the channel.
    pub fn msg_send_pulse(&mut self, coid: ConnectionId, priority: u8, code: i8, value: i32) -> Result<()> {
        result!(self.call(Call::Pulse { coid, priority, code, value })?, Mark::Done => ())
    }

    /// Receives a pulse from a channel, and sleeps until there is one; messages stay queued
    /// (`MsgReceivePulse`). Refused with `Srch` if the channel isn't open or is another process's.
    pub fn msg_receive_pulse(&mut self, chid: ChannelId) -> Result<Pulse> {
        let mark = self.make(true, &mut [], |_| Call::ReceivePulse { chid })?;
        result!(mark, Mark::Pulse { pulse, .. } => pulse)
    }
}

/// Threads, and the kernel's end.
impl Port {
    /// Sets the priority, 1 to 255, of a thread of the caller's process, which may be the caller
    /// (`SchedSet`). Refused with `Srch` if the thread isn't in the roster or is another process's, and
    /// `Inval` if the priority is 0.
    pub fn sched_set(&mut self, thread: u8, priority: u8) -> Result<()> {
        result!(self.call(Call::PrioritySet { thread, priority })?, Mark::Done => ())
    }

    /// Cancels the call in which a thread of the caller's process is blocked, as a signal or a timeout does.
    /// If the server holds the thread's message, and the channel has the flag `UNBLOCK`, it gets a pulse
    /// instead. Refused with `Srch` like `sched_set`, and with `Again` if that pulse has to be sent and 1,024
    /// pulses are queued on the channel. Not a QNX call.
    pub fn unblock(&mut self, thread: u8) -> Result<()> {
        result!(self.call(Call::Unblock { thread })?, Mark::Done => ())
    }

    /// Returns the state and priority of a thread of any process. Refused with `Srch` if the thread isn't in
    /// the roster. Not a QNX call.
    pub fn state(&mut self, thread: u8) -> Result<State> {
        result!(self.call(Call::State { thread })?, Mark::State(state) => state)
    }

    /// Cancels every open call; every later call is refused with `Down`. Not a QNX call. It is itself refused
    /// with `Down` if the kernel was shut down before.
    pub fn shutdown(&mut self) -> Result<()> {
        result!(self.call(Call::Shutdown)?, Mark::Done => ())
    }
}
