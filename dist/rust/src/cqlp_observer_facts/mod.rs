// Written by dist/erase from crates/cqlp_observer_facts/src/lib.rt.
//! What messages say beside their first fields, read as the bytes of their bodies pass.

mod announced;
mod batch;
mod columns;
mod due;
mod facts;
mod field_front;
mod numbers;
mod query;
mod reader;
mod rows;
mod types;

pub use facts::Facts;
pub use reader::FactsReader;
