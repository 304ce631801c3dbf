// Written by dist/erase from crates/cqlp_decode/src/advance.rt.
//! What a piece of input makes of a stream, with nothing borrowed but scalars.

use crate::cqlp_cell::CellOutline;
use crate::cqlp_kind::Scalar;
use crate::cqlp_note::{Field, FieldOutline, Header, Refusal};
use crate::cqlp_type::TypeOutline;

/// An event, with nothing borrowed.
#[derive(Clone, Copy)]
pub enum EventOutline {
    Frame(Header),
    Holds(Field, FieldOutline),
    Option(TypeOutline),
    /// A part of the cell of a row and a column.
    Cell(u32, u32, CellOutline),
    End(u32),
}

/// A scalar that is a whole cell, and how many bytes of the input it takes.
#[derive(Clone, Copy)]
pub struct ScalarCell<'a> {
    pub at: u64,
    pub used: usize,
    pub row: u32,
    pub column: u32,
    pub scalar: Scalar<'a>,
}

/// What one call makes of the input, with nothing borrowed.
#[derive(Clone, Copy)]
pub enum EventAdvance {
    /// All of the input was used, and more is wanted.
    More {
        used: usize,
    },
    /// An event at an offset, which ends after this many bytes of the input.
    Event {
        at: u64,
        used: usize,
        what: EventOutline,
    },
    Refused(Refusal),
}
