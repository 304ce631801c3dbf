// Written by dist/erase from crates/cqlp_statement_types/src/statement_types.rt.
//! Types of the pages of statements by their ids.

use crate::kit_host::prelude::{Vec};
use crate::cqlp_type::TypeTable;
use crate::kit_std::alloc::{AllocError};
use crate::kit_std::collections::BTreeMap;

/// The types of the columns of statements' pages by the statements' ids.
pub struct StatementTypes {
    tables: BTreeMap<Vec<u8>, TypeTable>,
}

impl StatementTypes {
    /// None. Takes no memory.
    pub fn new() -> Self {
        StatementTypes {
            tables: BTreeMap::new(),
        }
    }

    /// The types of the statement with this id.
    pub fn get(&self, id: &[u8]) -> Option<&TypeTable> {
        self.tables.get(id)
    }
}

impl StatementTypes {
    /// Puts the types of a statement in the place of those that its id has.
    pub(crate) fn put(&mut self, id: Vec<u8>, table: TypeTable) -> Result<(), AllocError> {
        match self.tables.insert(id, table) {
            Ok(_) => Ok(()),
            Err(_) => Err(AllocError),
        }
    }
}
