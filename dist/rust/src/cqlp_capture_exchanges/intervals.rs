// Written by dist/erase from crates/cqlp_capture_exchanges/src/intervals.rt.
//! Requests with what came of them, counted by the interval of time in which they were over.

use crate::cqlp_capture_exchanges::form::IntervalsAs;
use crate::cqlp_capture_exchanges::interval_objects::put_interval_object;
use crate::cqlp_capture_exchanges::noting::{answered_by, unanswered};
use crate::cqlp_capture_exchanges::outcome::Outcome;
use crate::cqlp_capture_exchanges::report::Report;
use crate::cqlp_capture_summary::{Occurrence, Summary};
use crate::cqlp_grammar::SinkFault;
use crate::cqlp_note::Target;
use crate::cqlp_observer::{Kept, Paired};
use crate::cqlp_text::{Buffered, Pen, TextWriter};

/// What came of the request of a report, if it has one.
pub(crate) fn outcome_in(report: &Report<'_>) -> Option<Outcome> {
    match report {
        Report::Messages { paired, .. } => outcome_of(paired),
        Report::Unread { .. } => None,
    }
}

fn outcome_of(paired: &Paired<Kept>) -> Option<Outcome> {
    match paired {
        Paired::Exchange { request, response } => Some(answered_by(request, response)),
        Paired::Unanswered { request } => Some(unanswered(request)),
        Paired::Unasked { .. } | Paired::Event { .. } => None,
    }
}

/// When the last byte of the response came, where it is known how long that took.
fn over_at(outcome: &Outcome) -> Option<u64> {
    match (outcome.at, outcome.took) {
        (Some(at), Some(took)) => Some(at.saturating_add(took)),
        (Some(_), None) | (None, _) => None,
    }
}

/// Counts the request of a report, if it has one, in the interval in which it was over.
pub(crate) fn note_in_interval(
    summary: &mut Summary,
    seconds: u32,
    report: &Report<'_>,
)
{
    match outcome_in(report) {
        Some(outcome) => note_outcome(summary, seconds, &outcome),
        None => {}
    }
}

pub(crate) fn note_outcome(summary: &mut Summary, seconds: u32, outcome: &Outcome) {
    let occurrence = Occurrence {
        name: b"",
        is_whole_name: true,
        is_error: outcome.is_error,
        rows: outcome.rows,
        bytes: outcome.bytes,
        took: outcome.took,
    };
    summary.note_in_interval(seconds, &occurrence, outcome.is_answered, over_at(outcome));
}

/// Before the request of a report, takes what is written of the interval that is over, or above all of them, and passes it on.
pub(crate) fn put_if_over<W: Target>(
    writer: &mut TextWriter<Buffered<W>>,
    shown: IntervalsAs,
    seconds: u32,
    summary: &Summary,
    report: &Report<'_>,
) -> Result<(), SinkFault> {
    match outcome_in(report) {
        Some(outcome) => put_before(writer, shown, seconds, summary, &outcome),
        None => Ok(()),
    }
}

fn put_before<W: Target>(
    writer: &mut TextWriter<Buffered<W>>,
    shown: IntervalsAs,
    seconds: u32,
    summary: &Summary,
    outcome: &Outcome,
) -> Result<(), SinkFault> {
    if summary.is_over(seconds, over_at(outcome)) {
        put_interval(writer, shown, seconds, summary)
    } else {
        Ok(())
    }
}

/// Takes what is written of the interval that is counted, or where none is above all of them, and passes it on.
pub(crate) fn put_interval<W: Target>(
    writer: &mut TextWriter<Buffered<W>>,
    shown: IntervalsAs,
    seconds: u32,
    summary: &Summary,
) -> Result<(), SinkFault> {
    put_as(writer, shown, seconds, summary)?;
    writer.pass_on()
}

fn put_as<P: Pen>(
    writer: &mut TextWriter<P>,
    shown: IntervalsAs,
    seconds: u32,
    summary: &Summary,
) -> Result<(), SinkFault> {
    match shown {
        IntervalsAs::Lines => summary.put_interval(writer, seconds),
        IntervalsAs::Json => put_interval_object(writer, seconds, &summary.others()),
    }
}
