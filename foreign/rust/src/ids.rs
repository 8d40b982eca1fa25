//! The ids of channels, connections and held messages.

use std::ops::BitOr;

/// The id of a channel. A kernel gives each number to only one channel.
#[derive(Clone, Copy, Debug, PartialEq, Eq, PartialOrd, Ord, Hash)]
pub struct ChannelId(pub u64);

/// The id of a connection of a process to a channel. A kernel gives each number to only one connection.
#[derive(Clone, Copy, Debug, PartialEq, Eq, PartialOrd, Ord, Hash)]
pub struct ConnectionId(pub u64);

/// The receive id of a held message. A kernel gives each number to only one message.
#[derive(Clone, Copy, Debug, PartialEq, Eq, PartialOrd, Ord, Hash)]
pub struct ReceiveId(pub u64);

/// The flags that a server passes to `channel_create`. The bits are the kernel's own, not QNX's.
#[derive(Clone, Copy, Debug, PartialEq, Eq, Hash, Default)]
pub struct ChannelFlags(pub u8);

impl ChannelFlags {
    /// No flags.
    pub const NONE: ChannelFlags = ChannelFlags(0);
    /// The priority of a thread doesn't change when it receives from the channel.
    pub const FIXED_PRIORITY: ChannelFlags = ChannelFlags(1);
    /// The server gets a pulse if a client is to be unblocked while the server holds its message.
    pub const UNBLOCK: ChannelFlags = ChannelFlags(2);
    /// The server gets a pulse when a process detaches its last connection to the channel.
    pub const DISCONNECT: ChannelFlags = ChannelFlags(4);
}

impl BitOr for ChannelFlags {
    type Output = ChannelFlags;

    fn bitor(self, other: ChannelFlags) -> ChannelFlags {
        ChannelFlags(self.0 | other.0)
    }
}
