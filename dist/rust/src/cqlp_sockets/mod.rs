// Written by dist/erase from crates/cqlp_sockets/src/lib.rt.
//! Sockets that do not wait, as readers and writers that keep why a call failed.

mod cause;
mod of_socket;

pub use cause::Cause;
pub use of_socket::OfSocket;
