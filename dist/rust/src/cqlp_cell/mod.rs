// Written by dist/erase from crates/cqlp_cell/src/lib.rt.
//! How cells of the CQL native protocol v4 are read.

mod advance;
mod content;
mod front;
mod gather;
mod item;
mod level;
mod number;
mod open_values;
mod progress;
mod reader;
mod reading;
mod size;
mod whole;

pub use advance::{CellAdvance, CellOutline};
pub use front::{FrontScalar, front_scalar};
pub use item::{CellItem, CellPush};
pub use level::{Level, PairKinds};
pub use reader::CellReader;
pub use whole::{BareItem, BarePart, DueItem, Entered};
