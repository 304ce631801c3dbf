// Written by dist/erase from crates/cqlp_type_tables/src/lib.rt.
//! Tables of the types that a caller knows as trees.

mod count;
mod found;
mod making;
mod typed;
mod writing;

pub use making::{TableError, table_of, table_of_specs};
