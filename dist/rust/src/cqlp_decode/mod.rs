// Written by dist/erase from crates/cqlp_decode/src/lib.rt.
//! A stream of frames of the CQL native protocol v4, read as events.

mod advance;
mod decoder;
mod feeding;
mod field_loop;
mod given;
mod item_loop;
mod leaf;
mod list_loop;
mod metadata;
mod page;
mod page_loop;
mod parts;
mod progress;
mod running;
mod step;

pub use crate::cqlp_grammar::{Event, Finish, Sink, SinkFault};
pub use decoder::{Decoder, NewError};
pub use feeding::Fed;
pub use given::{GiveError, GiveReason};
pub use running::{Outcome, run};
pub use step::{Capacity, FaultAfter, Held, Step};
