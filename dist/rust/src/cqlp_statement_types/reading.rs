// Written by dist/erase from crates/cqlp_statement_types/src/reading.rt.
//! Reading a file with statements and a schema.

use crate::cqlp_statement_types::gathered::Gathered;
use crate::cqlp_statement_types::statement_types::StatementTypes;
use crate::cqlp_note::Source;
use crate::cqlp_statement_file::{StatementsFault, read_objects};

/// Reads what cqlsh writes of `SELECT JSON * FROM` `system.prepared_statements`, `system_schema.columns` and, for user-defined types, `system_schema.types`,
/// in any order: in each line that begins with `{` a row of one of them. Other lines are passed over. Of a row that comes twice the first counts.
///
/// # Errors
///
/// Why there are no types. Nothing more is read then.
pub fn read_statement_types<S: Source>(
    input: &mut S,
) -> Result<StatementTypes, StatementsFault> {
    let mut gathered = Gathered::new();
    read_objects(input, &mut gathered)?;
    gathered.finish()
}
