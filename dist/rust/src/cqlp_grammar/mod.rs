// Written by dist/erase from crates/cqlp_grammar/src/lib.rt.
//! What follows what in a stream of the CQL native protocol v4, its events, and what takes them.

pub mod error_code;
mod event;
mod following;
mod grammar;
mod productions;
pub mod result_kind;
mod sink;
mod upcoming;

pub use event::{Event, Finish};
pub use following::{fault_in};
pub(crate) use following::{has, number};
pub use grammar::{Group, Role};
pub use productions::{Expected, Want, event_fields, target_fields};
pub use sink::{Sink, SinkFault};
pub use upcoming::Upcoming;
