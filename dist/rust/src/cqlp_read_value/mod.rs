// Written by dist/erase from crates/cqlp_read_value/src/lib.rt.
//! Values of cells of the CQL native protocol v4, read whole from their bytes.

mod cell;
mod error;
mod front;
mod owned;
mod reading;

pub use cell::{CellContent, PageCell, read_cell};
pub use error::ReadError;
pub use reading::read_value;
