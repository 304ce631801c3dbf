// Written by dist/erase from crates/cqlp_statement_file/src/lib.rt.
//! Texts of statements by their ids, from what cqlsh writes of a node's table of prepared statements.

mod fault;
mod id;
mod lines;
mod objects;
mod reading;
mod statement;
mod text;
mod texts;
mod undoubled;

pub use fault::StatementsFault;
pub use id::id_of;
pub use objects::TakesObjects;
pub use reading::{read_objects, read_statements};
pub use statement::text_at;
pub use text::StatementText;
pub use texts::StatementTexts;
