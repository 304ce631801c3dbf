// Written by dist/erase from crates/cqlp_capture_prepared/src/statement_types.rt.
//! The types of statements.

use crate::cqlp_type::TypeTable;

/// The types of the result of a statement.
pub(crate) struct StatementTypes {
    pub(crate) table: TypeTable,
}

