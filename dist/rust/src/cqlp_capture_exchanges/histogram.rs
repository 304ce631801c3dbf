// Written by dist/erase from crates/cqlp_capture_exchanges/src/histogram.rt.
//! Requests with what came of them, counted by how long they took.

use crate::cqlp_capture_exchanges::intervals::outcome_in;
use crate::cqlp_capture_exchanges::outcome::Outcome;
use crate::cqlp_capture_exchanges::report::Report;
use crate::cqlp_capture_summary::{Occurrence, Summary};
use crate::cqlp_grammar::SinkFault;
use crate::cqlp_note::Target;
use crate::cqlp_text::{Buffered, TextWriter};

/// Counts the request of a report, if it has one.
pub(crate) fn note_by_time(
    summary: &mut Summary,
    report: &Report<'_>,
)
{
    match outcome_in(report) {
        Some(outcome) => note_outcome(summary, &outcome),
        None => {}
    }
}

fn note_outcome(summary: &mut Summary, outcome: &Outcome) {
    let occurrence = Occurrence {
        name: b"",
        is_whole_name: true,
        is_error: outcome.is_error,
        rows: outcome.rows,
        bytes: outcome.bytes,
        took: outcome.took,
    };
    summary.note_request(&occurrence, outcome.is_answered, outcome.at);
}

/// Takes how many requests took how long, and passes it on.
pub(crate) fn put_histogram<W: Target>(
    writer: &mut TextWriter<Buffered<W>>,
    summary: &Summary,
) -> Result<(), SinkFault> {
    summary.put_histogram(writer)?;
    writer.pass_on()
}
