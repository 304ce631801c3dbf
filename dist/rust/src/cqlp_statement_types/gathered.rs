// Written by dist/erase from crates/cqlp_statement_types/src/gathered.rt.
//! What a file has of statements and of a schema.

use crate::kit_host::prelude::{KitVec, Vec};
use crate::cqlp_statement_types::schema::Schema;
use crate::cqlp_statement_types::selection::{is_select, types_selected};
use crate::cqlp_statement_types::statement_types::StatementTypes;
use crate::cqlp_statement_file::{StatementsFault, TakesObjects, id_of, text_at};
use crate::cqlp_type_tables::{TableError, table_of};
use crate::json::Value;
use crate::kit_std::alloc::{AllocError};

/// How many bytes the text of a statement has at most whose types are known.
const LONGEST: usize = 65_536;

/// The statements and the schema of a file, as far as it is read.
pub(crate) struct Gathered {
    schema: Schema,
    selects: Vec<Select>,
    /// Whether it has statements, SELECTs or others.
    has_statement: bool,
}

/// A SELECT that was prepared.
struct Select {
    id: Vec<u8>,
    /// The keyspace that it was prepared in; empty, if in none.
    keyspace: Vec<u8>,
    text: Vec<u8>,
}

impl Gathered {
    /// Nothing came.
    pub(crate) fn new() -> Self {
        Gathered {
            schema: Schema::new(),
            selects: Vec::new(),
            has_statement: false,
        }
    }

    /// The types of the statements, if there are some, and columns.
    pub(crate) fn finish(self) -> Result<StatementTypes, StatementsFault> {
        let Gathered {
            schema,
            selects,
            has_statement,
        } = self;
        if !has_statement {
            return Err(StatementsFault::NoStatement);
        }
        if schema.is_empty() {
            return Err(StatementsFault::NoColumn);
        }
        let mut types = StatementTypes::new();
        for select in selects {
            add_types(&schema, select, &mut types)?;
        }
        Ok(types)
    }

    /// Takes the statement of an object. Answers whether it has one.
    fn take_statement(&mut self, object: &Value<'_>, id: &str) -> Result<bool, AllocError> {
        let Some(text) = text_at(object, "query_string") else {
            return Ok(false);
        };
        let Some(id) = id_of(id)? else {
            return Ok(false);
        };
        self.has_statement = true;
        let text = text.as_bytes();
        if text.len() <= LONGEST && is_select(text)? {
            let keyspace = text_at(object, "logged_keyspace").unwrap_or("");
            self.selects.kit_push(Select {
                id,
                keyspace: Vec::from_slice(keyspace.as_bytes())?,
                text: Vec::from_slice(text)?,
            })?;
        }
        Ok(true)
    }
}

impl TakesObjects for Gathered {
    fn take(&mut self, object: &Value<'_>) -> Result<bool, AllocError> {
        match text_at(object, "prepared_id") {
            Some(id) => self.take_statement(object, id),
            None => self.schema.take(object),
        }
    }
}

/// Adds the types of a statement, if they are known, and its id has none.
fn add_types(
    schema: &Schema,
    select: Select,
    types: &mut StatementTypes,
) -> Result<(), AllocError> {
    let Select { id, keyspace, text } = select;
    if types.get(id.as_slice()).is_some() {
        return Ok(());
    }
    let Some(trees) = types_selected(schema, keyspace.as_slice(), text.as_slice())? else {
        return Ok(());
    };
    match table_of(trees.as_slice()) {
        Ok(table) => types.put(id, table),
        Err(TableError::NoMemory) => Err(AllocError),
        Err(TableError::NotWritable | TableError::TooLong) => Ok(()),
    }
}
