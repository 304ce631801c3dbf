// Written by dist/erase from crates/cqlp_capture_exchanges/src/bound.rt.
//! The values that a request binds, where they are to be written.

use crate::cqlp_capture_exchanges::form::ValuesShown;
use crate::cqlp_capture_exchanges::prepared::Known;
use crate::cqlp_capture_exchanges::statement::statement_of;
use crate::cqlp_bound_values::{Binding, put_values, put_values_members, values_bound_by};
use crate::cqlp_grammar::SinkFault;
use crate::cqlp_observer::{Kept, SeenMessage};
use crate::cqlp_text::{Pen, TextWriter};

/// Takes what a line has of the values that a request binds, if they are to be written.
pub(crate) fn put_values_if<P: Pen>(
    writer: &mut TextWriter<P>,
    known: &Known,
    shown: ValuesShown,
    request: &SeenMessage<Kept>,
) -> Result<(), SinkFault> {
    match shown {
        ValuesShown::No => writer.put(b""),
        ValuesShown::Yes => put_values(writer, &bound_by(known, request)),
    }
}

/// Likewise the members of an object.
pub(crate) fn put_values_members_if<P: Pen>(
    writer: &mut TextWriter<P>,
    known: &Known,
    shown: ValuesShown,
    request: &SeenMessage<Kept>,
) -> Result<(), SinkFault> {
    match shown {
        ValuesShown::No => writer.put(b""),
        ValuesShown::Yes => put_values_members(writer, &bound_by(known, request)),
    }
}

/// What a request binds, with the types of its statement, if that is known.
fn bound_by<'a>(known: &'a Known, request: &'a SeenMessage<Kept>) -> Binding<'a> {
    let header = &request.frame.header;
    let front = request.kept.front();
    let prepared = known.prepared_front(statement_of(header, front));
    values_bound_by(header, front, prepared)
}
