// Written by dist/erase from crates/cqlp_decode/src/parts.rt.
//! The parts of a decoder that own memory.

use crate::cqlp_cell::CellReader;
use crate::cqlp_note::Partial;
use crate::cqlp_type::{TypeReader, TypeTable};

/// All that a decoder has memory for.
pub struct Parts {
    /// The field under way.
    pub partial: Partial,
    /// The type option under way.
    pub types: TypeReader,
    /// The cell under way.
    pub cells: CellReader,
    /// The types of the metadata begun last.
    pub table: TypeTable,
    /// The table that the caller gave.
    pub given: Option<TypeTable>,
}
