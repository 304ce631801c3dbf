// Written by dist/erase from crates/cqlp_statement_file/src/reading.rt.
//! Reading a file with statements.

use crate::kit_host::prelude::{vec};
use crate::cqlp_statement_file::fault::StatementsFault;
use crate::cqlp_statement_file::lines::Lines;
use crate::cqlp_statement_file::objects::TakesObjects;
use crate::cqlp_statement_file::texts::StatementTexts;
use crate::cqlp_note::{IoFault, Source};

/// How many bytes a read asks for.
const PIECE: usize = 1 << 16;

/// Reads what cqlsh writes of `SELECT JSON * FROM system.prepared_statements`: in each line that begins with `{` a statement's id and text, or a row of a
/// schema, which is passed over as other lines are.
///
/// # Errors
///
/// Why there are no statements. Nothing more is read then.
pub fn read_statements<S: Source>(
    input: &mut S,
) -> Result<StatementTexts, StatementsFault> {
    let mut texts = StatementTexts::new();
    read_objects(input, &mut texts)?;
    if texts.is_empty() {
        Err(StatementsFault::NoStatement)
    } else {
        Ok(texts)
    }
}

/// Reads what cqlsh writes of `SELECT JSON`: in each line that begins with `{` an object. Other lines are passed over.
///
/// # Errors
///
/// A line that is too long, or has no object that is taken, or where there is no object at all. Nothing more is read then.
pub fn read_objects<S: Source, T: TakesObjects>(
    input: &mut S,
    objects: &mut T,
) -> Result<(), StatementsFault> {
    let mut piece = vec![0; PIECE]?;
    let mut lines = Lines::new();
    for _ in 0..u64::MAX {
        match input.read(&mut piece) {
            Ok(0) => return lines.finish(objects),
            Ok(count) => lines.take(&piece[..count], objects)?,
            Err(IoFault) => return Err(StatementsFault::Read),
        }
    }
    Err(StatementsFault::Read)
}
