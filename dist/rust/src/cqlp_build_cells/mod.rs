// Written by dist/erase from crates/cqlp_build_cells/src/lib.rt.
//! Values of cells of the CQL native protocol v4, built of their events.

mod builder;
mod error;
mod held;
mod step;
mod values;

pub use builder::{CellBuilder, CellLimits, ends_cell};
pub use error::CellError;
pub use held::CellEvents;
pub use step::{Step, ends, own_scalar, scalar_size};
pub(crate) use step::{own};
