// Written by dist/erase from crates/cqlp_statement_file/src/texts.rt.
//! Texts of statements by their ids.

use crate::kit_host::prelude::{Vec};
use crate::cqlp_statement_file::text::StatementText;
use crate::kit_std::alloc::{AllocError};
use crate::kit_std::collections::BTreeMap;

/// Texts of statements by their ids, of each the first that was added.
pub struct StatementTexts {
    texts: BTreeMap<Vec<u8>, StatementText>,
}

impl StatementTexts {
    /// None. Takes no memory.
    pub fn new() -> Self {
        StatementTexts {
            texts: BTreeMap::new(),
        }
    }

    /// Whether there are none.
    pub fn is_empty(&self) -> bool {
        self.texts.len() == 0
    }

    /// The text of the statement with this id.
    pub fn get(&self, id: &[u8]) -> Option<&StatementText> {
        self.texts.get(id)
    }

    /// Adds a statement, if none has its id. Where memory is refused, nothing changes.
    pub fn add(&mut self, id: Vec<u8>, text: &str) -> Result<(), AllocError> {
        if self.get(id.as_slice()).is_some() {
            return Ok(());
        }
        let text = StatementText::new(text)?;
        match self.texts.insert(id, text) {
            Ok(_) => Ok(()),
            Err(_) => Err(AllocError),
        }
    }
}
