//! What a frame says beside its first field, as its body grows and in pieces.
use super::fold;
use crate::cqlp_observer_facts::{Facts, FactsReader};
use crate::cqlp_note::Header;
use std::fmt::Write;

/// What is said of the first bytes of a frame's body.
#[derive(Clone, Copy, PartialEq, Eq)]
struct Known {
    /// How many of them lie before the message proper.
    before: usize,
    facts: Facts,
}

/// A line for each number of bytes at which the body of a frame says something new, and for all of it. The same is said of it in pieces of
/// 1 to 7 bytes.
pub fn said(frame: &[u8]) -> String {
    let (head, body) = frame.split_first_chunk().unwrap();
    let header = header_of(head);
    let (mut last, mut said) = (Facts::new(), String::new());
    for size in 0..=body.len() {
        let known = known_of(&header, &body[..size], size);
        if known.facts != last || size == body.len() {
            writeln!(said, "{size}: before {}{}", known.before, words(&known.facts)).unwrap();
        }
        last = known.facts;
    }
    for size in 1..8 {
        assert!(known_of(&header, body, size) == known_of(&header, body, body.len()), "pieces of {size} bytes");
    }
    said
}

/// The header that nine bytes are, of a frame that may be compressed.
fn header_of(bytes: &[u8; 9]) -> Header {
    let flags = bytes[1];
    let mut plain = *bytes;
    plain[1] = flags & 0xFE;
    Header { flags, ..Header::read(&plain, 0).unwrap() }
}

/// What is said of these bytes in pieces of this size.
fn known_of(header: &Header, bytes: &[u8], size: usize) -> Known {
    let mut reader = FactsReader::new(header);
    let before = bytes.chunks(size.max(1)).map(|piece| reader.read(piece)).sum();
    Known { before, facts: reader.facts() }
}

/// What is known, each after its name.
pub fn words(facts: &Facts) -> String {
    [
        facts.consistency.map(|level| format!(" consistency {level}")),
        facts.page_size.map(|size| format!(" page {size}")),
        facts.has_paging_state.map(|has| format!(" next {has}")),
        facts.trace_id.map(|id| format!(" trace {}", fold(0, &id))),
        facts.warnings.map(|count| format!(" warnings {count}")),
        facts.result.map(|kind| format!(" result {kind}")),
        facts.error.map(|code| format!(" error {code}")),
        facts.has_more_pages.map(|has| format!(" more {has}")),
        facts.columns.map(|count| format!(" columns {count}")),
        facts.rows.map(|count| format!(" rows {count}")),
    ]
    .into_iter()
    .flatten()
    .collect()
}
