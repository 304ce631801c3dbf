// Written by dist/erase from crates/cqlp_loop/src/lib.rt.
//! A client and a server of the CQL native protocol v4 that talk over the two ends of one connection, one turn after the
//! other.

mod client;
mod conversation;
mod fault;
mod inbox;
mod lines;
mod request;
mod server;

pub use conversation::{Socket, talk};
pub use fault::LoopFault;
