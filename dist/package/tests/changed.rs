//! The tests of inputs that were changed at random, of which there are as many as CQLP_STREAMS says, and of very many calls: a program of their own,
//! which dist/check builds optimized.

mod captures;
mod common;
#[path = "common/digits.rs"]
mod digits;
mod mutated;
mod page_cells;
mod requests;
mod values;
