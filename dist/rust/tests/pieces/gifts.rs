//! Tables of types that are given to a decoder, and taken back.

use super::memory::without_memory;
use crate::digits::bytes_of;
use cqlp::{Decoder, Limits, Step, TypeTable};

/// The limits within which the metadata of a table that is given is read.
const LIMITS: Limits = Limits { text: 64, cell: 64, entries: 64, depth: 64, types: true, parts: false };

/// The types of the last metadata of a stream, as far as it goes.
pub fn table(digits: &str) -> TypeTable {
    let stream = bytes_of(digits);
    let (mut decoder, mut rest) = (Decoder::new(LIMITS).unwrap(), &stream[..]);
    while let Step::Event { used, .. } = decoder.next(rest) {
        rest = &rest[used..];
    }
    decoder.table().clone_table().unwrap()
}

/// What is said of a piece that has a word in place of bytes: `give`, with the stream whose last metadata has the types, or `take`. How many
/// types came back, or why the table was not taken.
pub fn exchanged(decoder: &mut Decoder, piece: &str) -> Option<String> {
    let roots = |table: Option<TypeTable>| table.map(|table| table.roots());
    if piece == "take" {
        return Some(format!("taken {:?}\n", roots(without_memory(|| decoder.take_given()))));
    }
    let table = table(piece.strip_prefix("give")?);
    Some(match without_memory(|| decoder.give(table)) {
        Ok(before) => format!("given {:?}\n", roots(before)),
        Err(error) => format!("{:?} {}\n", error.why, error.table.len()),
    })
}
