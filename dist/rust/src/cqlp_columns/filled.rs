// Written by dist/erase from crates/cqlp_columns/src/filled.rt.
//! What a call makes of the input.

use crate::cqlp_note::Refusal;

/// Why a call stops.
#[derive(Clone, Copy, Debug, PartialEq, Eq)]
pub enum Stop {
    /// All of the input was used, and more is wanted.
    More,
    /// A row begins for which there is no room: the columns are to be read and cleared.
    Full,
    /// The other sink got an event that the columns do not take.
    Other,
    /// The other sink failed at such an event.
    Failed,
    /// The stream is refused, here and at every later call.
    Refused(Refusal),
}

/// What a call made of the input.
#[derive(Clone, Copy, Debug, PartialEq, Eq)]
pub struct Filled {
    /// How many bytes of the input were used.
    pub used: usize,
    /// Why it stopped.
    pub stop: Stop,
}
