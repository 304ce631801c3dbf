// Written by dist/erase from crates/cqlp_statement_file/src/statement.rt.
//! An object with a statement.

use crate::cqlp_statement_file::id::id_of;
use crate::cqlp_statement_file::objects::TakesObjects;
use crate::cqlp_statement_file::texts::StatementTexts;
use crate::json::Value;
use crate::kit_std::alloc::{AllocError};

/// Adds the statement of an object with an id and a text. Answers whether it is one.
fn add_object(
    object: &Value<'_>,
    texts: &mut StatementTexts,
) -> Result<bool, AllocError> {
    match text_at(object, "prepared_id") {
        Some(id) => match text_at(object, "query_string") {
            Some(text) => add_text(id, text, texts),
            None => Ok(false),
        },
        None => Ok(false),
    }
}

/// Adds a statement, if its id is one. Answers whether it is.
fn add_text(
    id: &str,
    text: &str,
    texts: &mut StatementTexts,
) -> Result<bool, AllocError> {
    match id_of(id) {
        Ok(Some(id)) => match texts.add(id, text) {
            Ok(()) => Ok(true),
            Err(AllocError) => Err(AllocError),
        },
        Ok(None) => Ok(false),
        Err(AllocError) => Err(AllocError),
    }
}

impl TakesObjects for StatementTexts {
    fn take(&mut self, object: &Value<'_>) -> Result<bool, AllocError> {
        match add_object(object, self) {
            Ok(true) => Ok(true),
            Ok(false) => Ok(is_of_schema(object)),
            Err(AllocError) => Err(AllocError),
        }
    }
}

/// Whether an object is a row of a schema: it names a keyspace.
fn is_of_schema(object: &Value<'_>) -> bool {
    text_at(object, "keyspace_name").is_some()
}

/// The text that an object has under a name.
pub fn text_at<'a>(object: &Value<'a>, name: &str) -> Option<&'a str> {
    match object.get(name) {
        Some(value) => value.as_str(),
        None => None,
    }
}
