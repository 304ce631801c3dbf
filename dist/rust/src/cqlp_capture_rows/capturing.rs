// Written by dist/erase from crates/cqlp_capture_rows/src/capturing.rt.
//! A capture whose pages are written.

use crate::cqlp_capture_rows::rows::Rows;
use crate::cqlp_capture_streams::{
    CaptureInput, LastWord, StreamsFault, StreamsLimits, conclude_capture, read_capture,
};
use crate::cqlp_note::Target;
use crate::cqlp_statement_types::StatementTypes;

/// Reads the frames on one connection of a capture with nodes that listen on these ports, within these limits: on the one with this number;
/// the first has the number 1. Writes the text of the pages among them to `out`, and what the capture was, or the fault line, to `err`. Of statements that
/// were prepared before the capture `given` has the types. Answers the exit status and the two outputs.
///
/// After a fault nothing more is asked of what failed.
pub(crate) fn write_rows<R: CaptureInput, O: Target, E: Target>(
    limits: StreamsLimits,
    ports: &[u16],
    given: StatementTypes,
    connection: u64,
    input: &mut R,
    out: O,
    err: E,
) -> (u8, O, E) {
    let mut rows = match Rows::new(given, connection, out) {
        Ok(rows) => rows,
        Err(out) => {
            let answer = Err(StreamsFault::NoMemory);
            let (status, err) = conclude_capture(&answer, ports, &LastWord("rows"), err);
            return (status, out, err);
        }
    };
    let answer = read_capture(limits, ports, input, &mut rows);
    let (status, err) = conclude_capture(&answer, ports, &LastWord("rows"), err);
    (status, rows.into_output(), err)
}
