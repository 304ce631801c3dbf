// Written by dist/erase from crates/cqlp_value/src/lib.rt.
//! Values of cells of the CQL native protocol v4, as a program owns them.

mod atom;
mod convert;
mod fitted;
mod fitting;
mod measure;
mod value;

pub use atom::Content;
pub use crate::cqlp_cell::{
    CellAdvance, CellItem, CellOutline, CellPush, CellReader, FrontScalar, front_scalar,
};
pub use crate::cqlp_kind::{Scalar};
pub(crate) use crate::cqlp_kind::{scalar};
pub use fitted::fitting_size;
pub use fitting::fits;
pub use measure::{content_len, value_len, value_size};
pub use value::{Atom, Value};
