// Written by dist/erase from crates/cqlp_capture_exchanges/src/reporter.rt.
//! What is reported of connections, on its way to an output.

use crate::kit_host::prelude::{Vec};
use crate::cqlp_capture_exchanges::connection::Connection;
use crate::cqlp_capture_exchanges::csv_record::{put_csv, put_names};
use crate::cqlp_capture_exchanges::filter::ExchangeFilter;
use crate::cqlp_capture_exchanges::form::ExchangeForm;
use crate::cqlp_capture_exchanges::histogram::put_histogram;
use crate::cqlp_capture_exchanges::intervals::{put_if_over, put_interval};
use crate::cqlp_capture_exchanges::lines::put_line;
use crate::cqlp_capture_exchanges::noting::note;
use crate::cqlp_capture_exchanges::object::put_json_line;
use crate::cqlp_capture_exchanges::prepared::Known;
use crate::cqlp_capture_exchanges::report::{ConnectionEnd, Report, is_unread};
use crate::cqlp_capture_exchanges::summary_objects::put_summary_objects;
use crate::cqlp_capture_exchanges::sums::ExchangeSums;
use crate::cqlp_capture_streams::StreamsFault;
use crate::cqlp_capture_summary::Summary;
use crate::cqlp_grammar::SinkFault;
use crate::cqlp_note::Target;
use crate::cqlp_observer::{Kept, Opening, Paired};
use crate::cqlp_text::{Buffered, TextWriter};

/// Counts what is reported of connections, and writes what is shown. Takes no memory.
pub(crate) struct Reporter<O: Target> {
    filter: ExchangeFilter,
    form: ExchangeForm,
    /// When the first packet with a segment was captured of which that is known.
    first: Option<u64>,
    known: Known,
    summary: Summary,
    sums: ExchangeSums,
    writer: TextWriter<Buffered<O>>,
}

impl<O: Target> Reporter<O> {
    /// Of an output, with nothing reported. A line waits in the buffer until it is whole, as far as there is room for it.
    pub(crate) fn new(
        filter: ExchangeFilter,
        form: ExchangeForm,
        out: O,
        buffer: Vec<u8>,
        known: Known,
        summary: Summary,
    ) -> Self {
        Reporter {
            filter,
            form,
            first: None,
            known,
            summary,
            sums: ExchangeSums::none(),
            writer: TextWriter::new(Buffered::new(out, buffer)),
        }
    }

    /// The output and the sums.
    pub(crate) fn into_parts(self) -> (O, ExchangeSums) {
        let Reporter {
            filter: _,
            form: _,
            first: _,
            known: _,
            summary: _,
            sums,
            writer,
        } = self;
        (writer.into_inner().into_inner(), sums)
    }

    /// Notes when a packet was captured, if it is the first of which that is known.
    pub(crate) fn note_time(&mut self, time: Option<u64>) {
        self.first = self.first.or(time);
    }

    /// Takes a report of this connection.
    fn take_report(
        &mut self,
        connection: &Connection,
        report: &Report<'_>,
    ) -> Result<(), SinkFault> {
        self.sums.count(report);
        if self
            .filter
            .shows(&self.known, self.first, connection, report)
        {
            let answer = put_report(
                &mut self.writer,
                self.form,
                &self.known,
                self.first,
                &self.summary,
                connection,
                report,
            );
            note(
                &mut self.summary,
                self.form,
                &self.known,
                connection,
                report,
            );
            answer
        } else {
            Ok(())
        }
    }

    /// Writes what is at the end.
    pub(crate) fn finish(&mut self) -> Result<(), SinkFault> {
        put_ending(&mut self.writer, self.form, &self.summary)
    }

    /// Reports messages, if there are some, and learns from them; where they are reported since their connection is finished, also how that ended.
    /// They are large, so they stay where they are unless they are kept.
    pub(crate) fn report_messages(
        &mut self,
        connection: &Connection,
        end: Option<ConnectionEnd>,
        exchange: &mut Option<Paired<Kept>>,
    ) -> Result<(), StreamsFault> {
        let taken = match &*exchange {
            Some(paired) => self.take_report(connection, &Report::Messages { paired, end }),
            None => return Ok(()),
        };
        match taken {
            Ok(()) => {
                self.known.learn(exchange);
                Ok(())
            }
            Err(SinkFault) => Err(StreamsFault::Write),
        }
    }

    /// Reports that a connection is not read, if a direction begins so at this time, unless that was reported.
    pub(crate) fn report_opening(
        &mut self,
        connection: &Connection,
        time: Option<u64>,
        was_reported: bool,
        opening: Opening,
    ) -> Result<(), StreamsFault> {
        if was_reported {
            Ok(())
        } else if is_unread(opening) {
            self.report_unread(connection, time, opening)
        } else {
            Ok(())
        }
    }

    /// Reports that a connection is not read, whose direction begins so at this time.
    fn report_unread(
        &mut self,
        connection: &Connection,
        time: Option<u64>,
        opening: Opening,
    ) -> Result<(), StreamsFault> {
        match self.take_report(connection, &Report::Unread { time, opening }) {
            Ok(()) => Ok(()),
            Err(SinkFault) => Err(StreamsFault::Write),
        }
    }
}

/// Takes what is written of a report of this connection, after what is in the summary so far, and passes it on.
fn put_report<W: Target>(
    writer: &mut TextWriter<Buffered<W>>,
    form: ExchangeForm,
    known: &Known,
    first: Option<u64>,
    summary: &Summary,
    connection: &Connection,
    report: &Report<'_>,
) -> Result<(), SinkFault> {
    match form {
        ExchangeForm::Lines(style) => put_line(writer, known, style, first, connection, report),
        ExchangeForm::Json(shown) => {
            put_json_line(writer, known, shown, first, connection, report)
        }
        ExchangeForm::Csv => put_csv(writer, known, first, summary, connection, report),
        ExchangeForm::Summary(_) => Ok(()),
        ExchangeForm::SummaryJson(_) => Ok(()),
        ExchangeForm::Intervals(seconds, shown) => {
            put_if_over(writer, shown, seconds, summary, report)
        }
        ExchangeForm::Histogram => Ok(()),
    }
}

/// Takes what is written at the end, and passes it on.
fn put_ending<W: Target>(
    writer: &mut TextWriter<Buffered<W>>,
    form: ExchangeForm,
    summary: &Summary,
) -> Result<(), SinkFault> {
    match form {
        ExchangeForm::Lines(_) => Ok(()),
        ExchangeForm::Json(_) => Ok(()),
        ExchangeForm::Csv => put_names(writer, summary),
        ExchangeForm::Summary(by) => put_summary(writer, by.heading(), summary),
        ExchangeForm::SummaryJson(by) => put_objects(writer, by.heading(), summary),
        ExchangeForm::Intervals(seconds, shown) => put_interval(writer, shown, seconds, summary),
        ExchangeForm::Histogram => put_histogram(writer, summary),
    }
}

/// Takes the lines of a summary, with this heading above the names, and passes them on.
fn put_summary<W: Target>(
    writer: &mut TextWriter<Buffered<W>>,
    heading: &str,
    summary: &Summary,
) -> Result<(), SinkFault> {
    summary.put(writer, heading)?;
    writer.pass_on()
}

/// Takes the objects of a summary of these names, and passes them on.
fn put_objects<W: Target>(
    writer: &mut TextWriter<Buffered<W>>,
    by: &str,
    summary: &Summary,
) -> Result<(), SinkFault> {
    put_summary_objects(writer, by, summary)?;
    writer.pass_on()
}
