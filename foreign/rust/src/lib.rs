#![doc = include_str!("../README.md")]

mod calls;
mod daemon;
mod errors;
mod host;
mod ids;
pub mod kernel;
mod port;
#[cfg(feature = "record")]
#[path = "../tests/record/mod.rs"]
mod record;
mod results;
mod shared;
mod sleeping;
#[cfg(test)]
#[path = "../tests/unit/mod.rs"]
mod unit;
mod wire;

pub use errors::{CallError, Errno, OpenError, Result};
pub use ids::{ChannelFlags, ChannelId, ConnectionId, ReceiveId};
pub use kernel::Thread;
pub use port::{Port, open, open_array};
pub use results::{Answer, Info, Pulse, Received, Request, State, ThreadState, What};
