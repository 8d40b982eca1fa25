//! The packets and the shared memory by which a program and a `balsaeuchred` talk. These are the declarations
//! of `foreign/daemon/wire.h`, and of QNX's headers that it includes, on x86-64. A test compares each of them
//! with the headers.

use crate::kernel::RawRequest;
use std::mem::offset_of;
use std::sync::atomic::AtomicU32;

/// The version of the wire.
pub(crate) const VERSION: i32 = 4;
/// The greatest number of bytes of a message, and of a reply.
pub(crate) const MOST: usize = 1 << 20;
/// The number of bytes of room for a name with the zero at its end.
pub(crate) const NAME_ROOM: usize = 256;

pub(crate) const OP_PROCESS: u32 = 1;
pub(crate) const OP_THREAD: u32 = 2;
pub(crate) const OP_CALL: u32 = 3;
pub(crate) const OP_NAME: u32 = 5;
pub(crate) const OP_UNNAME: u32 = 6;
pub(crate) const OP_FIND: u32 = 7;

/// The values of `Answer::how`: the call was cancelled; the error is the code of the server's reply.
pub(crate) const CUT: u8 = 1;
pub(crate) const CODE: u8 = 2;

/// The values of `Shared::word`.
pub(crate) const OPEN: u32 = 0;
pub(crate) const ASLEEP: u32 = 1;
pub(crate) const ANSWERED: u32 = 2;

/// The states of a thread that is blocked.
pub(crate) const STATE_SEND: i64 = 2;
pub(crate) const STATE_RECEIVE: i64 = 3;
pub(crate) const STATE_REPLY: i64 = 4;
/// The states in which a timeout ends a call.
pub(crate) const TIMED_STATES: i32 = 1 << STATE_SEND | 1 << STATE_RECEIVE | 1 << STATE_REPLY;

/// The codes of the kernel's pulses.
pub(crate) const CODE_UNBLOCK: i8 = -1;
pub(crate) const CODE_DISCONNECT: i8 = -2;

/// `struct wire_ask`.
#[repr(C)]
#[derive(Clone, Copy, Default)]
pub(crate) struct Ask {
    pub(crate) op: u32,
    pub(crate) call: u32,
    pub(crate) number: i32,
    pub(crate) pid: i32,
    pub(crate) states: i32,
    pub(crate) flags: u32,
    pub(crate) time: u64,
    pub(crate) value: u64,
    pub(crate) sent_len: u32,
    pub(crate) room_len: u32,
    pub(crate) request: RawRequest,
}

/// `struct _msg_info`.
#[repr(C)]
#[derive(Clone, Copy, Default)]
pub(crate) struct MsgInfo {
    pub(crate) nd: u32,
    pub(crate) srcnd: u32,
    pub(crate) pid: i32,
    pub(crate) tid: i32,
    pub(crate) chid: i32,
    pub(crate) scoid: i32,
    pub(crate) coid: i32,
    pub(crate) priority: i16,
    pub(crate) flags: i16,
    pub(crate) msglen: usize,
    pub(crate) srcmsglen: usize,
    pub(crate) dstmsglen: usize,
    pub(crate) type_id: u32,
    pub(crate) reserved: u32,
}

/// `struct wire_answer`.
#[repr(C)]
#[derive(Clone, Copy, Default)]
pub(crate) struct Answer {
    pub(crate) error: i32,
    pub(crate) length: u32,
    pub(crate) result: i64,
    pub(crate) count: u32,
    pub(crate) how: u8,
    pub(crate) priority: u8,
    pub(crate) info: MsgInfo,
}

/// `struct wire_box`. Its fields from `word` on are in cache lines of their own, here as `Back`.
#[repr(C)]
pub(crate) struct Shared {
    pub(crate) asked: AtomicU32,
    pub(crate) given_up: AtomicU32,
    pub(crate) ask: Ask,
    pub(crate) back: Back,
}

#[repr(C, align(64))]
pub(crate) struct Back {
    pub(crate) word: AtomicU32,
    pub(crate) rings: AtomicU32,
    pub(crate) answer: Answer,
    pub(crate) bytes: [u8; 2 * MOST],
}

/// `struct _pulse`. Only its offsets are used.
#[repr(C)]
pub(crate) struct RawPulse {
    pub(crate) r#type: u16,
    pub(crate) subtype: u16,
    pub(crate) code: i8,
    pub(crate) zero: [u8; 3],
    pub(crate) value: u64,
    pub(crate) scoid: i32,
}

const _: () = assert!(size_of::<Ask>() == 88 && offset_of!(Ask, request) == 48);
const _: () = assert!(size_of::<MsgInfo>() == 64 && offset_of!(MsgInfo, msglen) == 32);
const _: () = assert!(size_of::<Answer>() == 88 && offset_of!(Answer, info) == 24);
const _: () = assert!(offset_of!(Shared, back.word) == 128 && offset_of!(Shared, back.bytes) == 224);
const _: () = assert!(size_of::<Shared>() == (224 + 2 * MOST).next_multiple_of(64));
const _: () = assert!(size_of::<RawPulse>() == 24 && offset_of!(RawPulse, scoid) == 16);

#[cfg(test)]
#[path = "../tests/unit/wire.rs"]
mod test;
