// Written by dist/erase from crates/cqlp_observer/src/room.rt.
//! How much may wait.

/// How much of a connection may wait in all. A caller that has many connections gives each what is left of its own limits and what that one holds.
#[derive(Clone, Copy, Debug, PartialEq, Eq)]
pub struct WatchRoom {
    /// How many messages: where as many wait, one under a further stream id is reported alone.
    pub messages: usize,
    /// How many bytes of texts: where that of a message is too much beside the others, the message goes on with its header alone. The text of a
    /// message that waits takes 128 bytes and its first bytes, and where it has warnings 64 and the first bytes before it; that of one that passes in
    /// several pieces 832.
    pub text: usize,
}

impl WatchRoom {
    /// That of a caller with one connection: a message under each stream id of a client, and 1 MiB.
    pub const ONE: WatchRoom = WatchRoom {
        messages: 32_768,
        text: 1_048_576,
    };
}
