// Written by dist/erase from crates/cqlp_capture_prepared/src/prepared_types.rt.
//! The types of statements that were prepared, for the pages that answer EXECUTEs.

use crate::cqlp_capture_prepared::error::NewPreparedError;
use crate::cqlp_capture_prepared::latest::Latest;
use crate::cqlp_capture_prepared::statement_id::StatementId;
use crate::cqlp_capture_prepared::statement_types::StatementTypes;
use crate::cqlp_note::NoMemory;
use crate::cqlp_type::TypeTable;

/// The types of statements that were prepared, and the statements that EXECUTEs name which wait for their responses.
///
/// A page whose metadata the server left out (flag No_metadata, section 4.2.5.2 of `native_protocol_v4.spec`) has the types that the PREPARED
/// response of its statement had. `new` takes memory for both lists, in two requests; after it only `prepared` and `types_for` ask for some,
/// one request each, for a copy of a table with the room that the table has.
pub struct PreparedTypes {
    known: Latest<StatementId, StatementTypes>,
    awaited: Latest<i16, StatementId>,
}

impl PreparedTypes {
    /// Says that an EXECUTE under this stream id names the statement with this id. It takes the place of one that waits under the same stream
    /// id, and where too many wait, of the one that waits longest. An id of more than [`StatementId::MOST`] bytes names nothing that is known.
    pub fn executed(&mut self, stream: i16, id: &[u8]) {
        match StatementId::new(id) {
            Some(id) => {
                self.known.touch(&id);
                self.awaited.put(stream, id);
            }
            None => self.forget(stream),
        }
    }

    /// Says that a response came under this stream id. It answers the EXECUTE that waits under it, if one does: the id of the statement that
    /// this one names.
    pub fn answered(&mut self, stream: i16) -> Option<StatementId> {
        self.awaited.take(&stream)
    }

    /// Says that a request of another kind came under this stream id: no EXECUTE waits under it.
    pub fn forget(&mut self, stream: i16) {
        let _ = self.answered(stream);
    }

    /// The types that the last PREPARED response said which named this id, if they are still known.
    pub fn types_of(&self, id: &StatementId) -> Option<&TypeTable> {
        let types = self.known.get(id)?;
        Some(&types.table)
    }

    /// Says that the statement with this id is used, as by an EXECUTE that names it.
    pub fn note_use(&mut self, id: &StatementId) {
        self.known.touch(id);
    }

    /// Begins with another connection, of which nothing is known, with the memory for both lists that it has.
    pub fn clear(&mut self) {
        self.known.clear();
        self.awaited.clear();
    }
}

impl PreparedTypes {
    /// Nothing is known. At most `statements` statements will be, and at most `executes` EXECUTEs wait, 1 to 65,535 each.
    pub fn new(statements: u16, executes: u16) -> Result<Self, NewPreparedError> {
        if statements == 0 || executes == 0 {
            return Err(NewPreparedError::BadLimit);
        }
        Ok(PreparedTypes {
            known: Latest::new(statements)?,
            awaited: Latest::new(executes)?,
        })
    }

    /// Says that a PREPARED response named a statement with this id, and has these types of its result. It takes the place of the statement
    /// that had the id, and where all places are taken, of the one that was prepared or executed longest ago. A statement with an id of more
    /// than [`StatementId::MOST`] bytes is not kept, and no memory is asked for. Where memory for the copy of the table is refused, nothing
    /// changes.
    pub fn prepared(&mut self, id: &[u8], types: &TypeTable) -> Result<(), NoMemory> {
        if let Some(id) = StatementId::new(id) {
            let table = types.clone_table()?;
            self.known.put(id, StatementTypes { table });
        }
        Ok(())
    }

    /// Says that a response came under this stream id, as [`PreparedTypes::answered`] does, and copies the types of the statement for
    /// `Decoder::give`. Memory is asked for only where there are types.
    pub fn types_for(&mut self, stream: i16) -> Result<Option<TypeTable>, NoMemory> {
        match self.answered(stream) {
            Some(id) => self.copy_of(&id),
            None => Ok(None),
        }
    }

    fn copy_of(&self, id: &StatementId) -> Result<Option<TypeTable>, NoMemory> {
        match self.types_of(id) {
            Some(types) => Ok(Some(types.clone_table()?)),
            None => Ok(None),
        }
    }
}
