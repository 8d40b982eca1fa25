//! The results of calls.

use crate::ids::{ChannelId, ConnectionId, ReceiveId};

/// A server's reply to a message (`MsgSend`).
#[derive(Clone, Copy, Debug, PartialEq, Eq)]
pub struct Answer<'b> {
    /// The status of the server's reply.
    pub status: i64,
    /// The number of bytes that the server copied to the start of the buffer.
    pub copied: usize,
    /// The whole reply buffer. After the reply it is unchanged, except where `msg_write` wrote.
    pub buffer: &'b [u8],
}

impl<'b> Answer<'b> {
    /// Returns the bytes of the reply, as many as the buffer had room for.
    #[must_use]
    pub fn bytes(&self) -> &'b [u8] {
        &self.buffer[..self.copied]
    }
}

/// The message or pulse that was received (`MsgReceive`).
#[must_use = "the sender of a message waits until it is answered"]
#[derive(Clone, Copy, Debug, PartialEq, Eq)]
pub enum Received<'b> {
    /// A message. Its sender is blocked until the reply.
    Message(Request<'b>),
    /// A pulse. No thread waits for a reply.
    Pulse(Pulse),
}

/// A message that was received.
#[must_use = "the sender of a message waits until it is answered"]
#[derive(Clone, Copy, Debug, PartialEq, Eq)]
pub struct Request<'b> {
    /// The receive id, by which the server replies to the message.
    pub rcvid: ReceiveId,
    /// The number of its bytes that were copied to the start of the buffer.
    pub copied: usize,
    /// The whole buffer. After the message it is unchanged.
    pub buffer: &'b [u8],
    /// Its sender, its priority, its connection, and its lengths.
    pub info: Info,
}

impl<'b> Request<'b> {
    /// Returns the bytes of the message, as many as the buffer had room for.
    #[must_use]
    pub fn bytes(&self) -> &'b [u8] {
        &self.buffer[..self.copied]
    }
}

/// A pulse that was received (`MsgReceivePulse`).
#[derive(Clone, Copy, Debug, PartialEq, Eq)]
pub struct Pulse {
    /// The priority that it was sent with.
    pub priority: u8,
    /// Its content: the code and value of a thread's pulse, or a pulse of the kernel.
    pub what: What,
}

/// The content of a pulse.
#[derive(Clone, Copy, Debug, PartialEq, Eq)]
pub enum What {
    /// A thread sent it, with [`msg_send_pulse`](crate::Port::msg_send_pulse).
    User {
        /// The code, 0 to 127.
        code: i8,
        /// The value, any number.
        value: i32,
    },
    /// The sender of this held message is to be unblocked.
    Unblock(ReceiveId),
    /// This process detached its last connection to the channel.
    Disconnect(u32),
}

/// The data of a held message.
#[derive(Clone, Copy, Debug, PartialEq, Eq)]
pub struct Info {
    /// The sender's process. In a daemon's kernel it is the number of a program, which C has as `scoid`. The
    /// daemon doesn't give the number to a later program soon.
    pub process: u32,
    /// The thread that sent the message.
    pub thread: u8,
    /// The priority that the message was received with.
    pub priority: u8,
    /// The connection over which the message was sent.
    pub connection: ConnectionId,
    /// The number of bytes that were copied when the message was received.
    pub msglen: usize,
    /// The length of the message in bytes.
    pub srcmsglen: usize,
    /// The length of the reply buffer in bytes.
    pub dstmsglen: usize,
}

/// A thread's state, named as in the QNX Neutrino System Architecture, with the channel on which it is
/// blocked.
#[derive(Clone, Copy, Debug, PartialEq, Eq)]
pub enum ThreadState {
    /// The thread isn't blocked in the kernel.
    Ready,
    /// The thread sent a message that no server has received.
    SendBlocked(ChannelId),
    /// The thread waits for a message or a pulse.
    ReceiveBlocked(ChannelId),
    /// The thread's message was received and has no reply yet.
    ReplyBlocked(ChannelId),
}

/// A thread's state and priority.
#[derive(Clone, Copy, Debug, PartialEq, Eq)]
pub struct State {
    /// Whether the thread is blocked, in which state and on which channel.
    pub state: ThreadState,
    /// The thread's priority.
    pub priority: u8,
}
