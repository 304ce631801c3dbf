// Written by dist/erase from crates/cqlp_grammar/src/sink.rt.
//! What takes events.

use crate::cqlp_grammar::event::Event;

error! {
/// A sink that gives up.
#[derive(Clone, Copy, Debug, PartialEq, Eq)]
#[error("the sink gave up")]
pub struct SinkFault;
}

/// What takes the events of a stream, one after the other.
pub trait Sink {
    /// Takes the event at an offset.
    ///
    /// # Errors
    ///
    /// Whatever keeps the sink from going on: who hands the events out stops there.
    fn take(&mut self, at: u64, event: &Event<'_>) -> Result<(), SinkFault>;
}
