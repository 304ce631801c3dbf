// Written by dist/erase from crates/cqlp_loop/src/fault.rt.
//! What ends a conversation early.

error! {
/// What ends a conversation early.
#[derive(Clone, Copy, Debug, PartialEq, Eq)]
pub enum LoopFault {
    /// A message was refused, by the decoder of its bytes or by the core of the end that it came to.
    #[error("bad reply")]
    BadReply,
    /// A message was not whole after 8,192 reads.
    #[error("too many turns")]
    TooManyTurns,
    /// A read or a write of a socket failed, or a connection ended before a message did.
    #[error("socket fault")]
    SocketFault,
    #[error("no memory")]
    NoMemory,
    /// The output failed.
    #[error("write fault")]
    WriteFault,
}
}
