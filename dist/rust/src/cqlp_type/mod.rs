// Written by dist/erase from crates/cqlp_type/src/lib.rt.
//! Type options of the CQL native protocol v4.

mod advance;
mod check;
mod depth;
mod item;
mod open_options;
mod reader;
mod remaining;
mod size;
mod table;
mod tree;

pub use advance::{TypeAdvance, TypeOutline};
pub use check::{TreeCheck, check_type};
pub use crate::cqlp_kind::{Kind, Node};
pub use item::{TypeItem, TypePush};
pub use reader::TypeReader;
pub use size::type_size;
pub use table::TypeTable;
pub use tree::{TypeTree, type_len};
