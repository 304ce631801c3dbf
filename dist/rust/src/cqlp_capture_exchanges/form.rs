// Written by dist/erase from crates/cqlp_capture_exchanges/src/form.rt.
//! How exchanges are written.

use crate::cqlp_capture_exchanges::summary_by::SummaryBy;

/// Whether the values that a request binds are written.
#[derive(Clone, Copy)]
pub enum ValuesShown {
    No,
    /// As far as the first 256 bytes of its message hold them; by their types, as far as those of the PREPARED response for its statement do.
    Yes,
}

/// What a line says in its own way.
#[derive(Clone, Copy)]
pub struct LineStyle {
    /// Whether its time is a date and a time of day of UTC, in place of the seconds since the first packet.
    pub is_utc: bool,
    /// Whether it names the ends of the connection, the client's and the node's.
    pub has_ends: bool,
    pub values: ValuesShown,
}

impl LineStyle {
    /// With seconds, without ends, and without values.
    pub const PLAIN: LineStyle = LineStyle {
        is_utc: false,
        has_ends: false,
        values: ValuesShown::No,
    };
}

/// How intervals are written.
#[derive(Clone, Copy)]
pub enum IntervalsAs {
    /// A line for each, below one with the names of its columns.
    Lines,
    /// A JSON object in a line for each.
    Json,
}

/// How exchanges are written.
#[derive(Clone, Copy)]
pub enum ExchangeForm {
    /// A line for each, as soon as the last byte of the response is there.
    Lines(LineStyle),
    /// A JSON object in a line for each, as soon as the last byte of the response is there.
    Json(ValuesShown),
    /// Likewise a record of CSV, below one with the names of its fields.
    Csv,
    /// A line for each name at the end of the capture, by which requests are counted: how many there were, and how long they took.
    Summary(SummaryBy),
    /// Likewise a JSON object in a line for each name.
    SummaryJson(SummaryBy),
    /// A line for each interval of so many seconds, at least one, as soon as it is over: how many requests were over in it, and how long they took. The summary
    /// has no places, and takes 23,664 bytes.
    Intervals(u32, IntervalsAs),
    /// At the end of the capture how many requests took how long, in ranges of time that double. The summary has no places.
    Histogram,
}

impl ExchangeForm {
    /// How many statements a summary distinguishes.
    pub(crate) fn statements(self) -> usize {
        match self {
            ExchangeForm::Lines(_) => 0,
            ExchangeForm::Json(_) => 0,
            ExchangeForm::Csv => 0,
            ExchangeForm::Summary(_) => 256,
            ExchangeForm::SummaryJson(_) => 256,
            ExchangeForm::Intervals(_, _) => 0,
            ExchangeForm::Histogram => 0,
        }
    }
}
