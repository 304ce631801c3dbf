// Written by dist/erase from crates/cqlp_bound_values/src/lib.rt.
//! The values that a request binds to its statement, as far as the first bytes of its message hold them, with the types that a PREPARED response gives them.

mod binding;
mod column_types;
mod field;
mod form;
mod item;
mod line_scalar;
mod nested;
mod nested_text;
mod scalars;
mod text;

pub use binding::{Binding, BoundValues, values_bound_by};
pub use column_types::ColumnTypes;
pub use text::{put_values, put_values_members};
