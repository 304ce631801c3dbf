//! The line of a request with its reply.

use super::observer::Seen;
use cqlp::text::opcode_name;
use cqlp::watch::{Extent, Paired, SeenMessage};
use cqlp::{Opcode, result_kind};
use std::fmt;

/// What is told of the connection with this number, in the form that `cqlp capture` has.
pub struct Line<'a> {
    pub number: u64,
    pub told: &'a Paired<Seen>,
}

impl fmt::Display for Line<'_> {
    fn fmt(&self, f: &mut fmt::Formatter<'_>) -> fmt::Result {
        let (Paired::Exchange { request: first, .. }
        | Paired::Unanswered { request: first }
        | Paired::Unasked { response: first }
        | Paired::Event { event: first }) = self.told;
        write!(f, "{}:{} ", self.number, first.stream())?;
        match self.told {
            Paired::Exchange { request, response } => {
                let took = response.frame.ended.zip(request.frame.begun).map_or(0, |(to, from)| to.saturating_sub(from));
                write!(f, "{} -> {} {}.{:03} ms", Asked(request), Replied(response), took / 1_000_000, took / 1_000 % 1_000)
            }
            Paired::Unanswered { request } => write!(f, "{} -> nothing", Asked(request)),
            Paired::Unasked { response } => write!(f, "nothing -> {}", Replied(response)),
            Paired::Event { event } => write!(f, "{}", Replied(event)),
        }
    }
}

/// A request: its opcode, the first words of its statement, and its bytes.
struct Asked<'a>(&'a SeenMessage<Seen>);

impl fmt::Display for Asked<'_> {
    fn fmt(&self, f: &mut fmt::Formatter<'_>) -> fmt::Result {
        let SeenMessage { frame, kept } = self.0;
        f.write_str(opcode_name(frame.header.opcode))?;
        if let Some((statement, is_whole)) = kept.words.statement() {
            let dots = if is_whole { "" } else { ".." };
            write!(f, " {:?}{dots}", String::from_utf8_lossy(statement))?;
        }
        put_length(f, self.0)
    }
}

/// A response: its opcode, the kind of a RESULT with the rows and columns of a page, or the code of an ERROR, and its bytes.
struct Replied<'a>(&'a SeenMessage<Seen>);

impl fmt::Display for Replied<'_> {
    fn fmt(&self, f: &mut fmt::Formatter<'_>) -> fmt::Result {
        let SeenMessage { frame, kept } = self.0;
        f.write_str(opcode_name(frame.header.opcode))?;
        if let (Opcode::Result, Some(kind)) = (frame.header.opcode, kept.facts.result) {
            f.write_str(" ")?;
            put_kind(f, kind)?;
        }
        if let (Some(rows), Some(columns)) = (kept.facts.rows, kept.facts.columns) {
            write!(f, " {rows}x{columns}")?;
        }
        if let Some(code) = kept.facts.error {
            write!(f, " {code:04x}")?;
        }
        put_length(f, self.0)
    }
}

/// The name of a kind of result, or the number of one that has none.
fn put_kind(f: &mut fmt::Formatter<'_>, kind: u32) -> fmt::Result {
    f.write_str(match kind {
        result_kind::VOID => "VOID",
        result_kind::ROWS => "ROWS",
        result_kind::SET_KEYSPACE => "SET_KEYSPACE",
        result_kind::PREPARED => "PREPARED",
        result_kind::SCHEMA_CHANGE => "SCHEMA_CHANGE",
        _ => return write!(f, "{kind}"),
    })
}

/// How many bytes the frame has, and whether some of them did not come.
fn put_length(f: &mut fmt::Formatter<'_>, message: &SeenMessage<Seen>) -> fmt::Result {
    let cut = if message.frame.extent == Extent::Whole { "" } else { " cut" };
    write!(f, " {}{cut}", 9 + u64::from(message.frame.header.length))
}
