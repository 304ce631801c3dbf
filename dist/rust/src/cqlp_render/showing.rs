// Written by dist/erase from crates/cqlp_render/src/showing.rt.
//! A whole stream, shown or checked.

use crate::kit_std::prelude::{vec};
use crate::cqlp_render::buffered_sink::BufferedSink;
use crate::cqlp_render::form::{CsvRows, Form, JsonLines, JsonRows, Lines, Nothing};
use crate::cqlp_render::render::{TextSink, run_flushing};
use crate::cqlp_render::text_form::TextForm;
use crate::cqlp_decode::{Decoder, NewError, Outcome, SinkFault, run};
use crate::cqlp_note::{Limits, Source, Target};
use crate::cqlp_text::exit_status::FAULT;
use crate::cqlp_text::{Buffered, Ending, PagePlace, ending_line};

/// How many reads the program makes at most.
pub const TURNS: u64 = 4_294_967_296;

/// How many bytes of text go to the output at once.
pub const ROOM: usize = 16_384;

/// Writes the lines of the events of a stream to `out`, and the verdict line or fault line to `err`. Answers the exit
/// status, and the two outputs.
pub(crate) fn show<R: Source, O: Target, E: Target>(
    limits: Limits,
    input: &mut R,
    out: O,
    err: E,
) -> (u8, O, E) {
    show_as(limits, false, TextForm::Lines, input, out, err)
}

/// Writes the text of the pages of a stream to `out`, and the verdict line or fault line to `err`. Answers the exit
/// status, and the two outputs.
pub(crate) fn rows<R: Source, O: Target, E: Target>(
    limits: Limits,
    input: &mut R,
    out: O,
    err: E,
) -> (u8, O, E) {
    show_as(
        limits,
        false,
        TextForm::Pages(PagePlace::new()),
        input,
        out,
        err,
    )
}

/// Writes the events of a stream, whose reading is lenient or not, to `out` as text in a form, and the verdict line or fault line
/// to `err`. Answers the exit status, and the two outputs.
pub(crate) fn show_as<R: Source, O: Target, E: Target>(
    limits: Limits,
    lenient: bool,
    form: TextForm,
    input: &mut R,
    out: O,
    err: E,
) -> (u8, O, E) {
    match form {
        TextForm::Lines => show_in(limits, lenient, Lines, input, out, err),
        TextForm::JsonLines => show_in(limits, lenient, JsonLines, input, out, err),
        TextForm::Pages(place) => show_in(limits, lenient, place, input, out, err),
        TextForm::JsonRows(place) => {
            show_in(limits, lenient, JsonRows(place), input, out, err)
        }
        TextForm::CsvRows(place) => {
            show_in(limits, lenient, CsvRows(place), input, out, err)
        }
        TextForm::Nothing => show_in(limits, lenient, Nothing, input, out, err),
    }
}

/// Does what `show_as` does, with the type of the form.
fn show_in<R: Source, O: Target, E: Target, F: Form>(
    limits: Limits,
    lenient: bool,
    form: F,
    input: &mut R,
    out: O,
    err: E,
) -> (u8, O, E) {
    let Some(mut decoder) = decoder_within(limits, lenient) else {
        let (status, err) = conclude(Ending::NoMemory, err);
        return (status, out, err);
    };
    let Ok(buffer) = vec![0; ROOM] else {
        let (status, err) = conclude(Ending::NoMemory, err);
        return (status, out, err);
    };
    let mut sink = BufferedSink::new(Buffered::new(out, buffer), form);
    let outcome = run_flushing(&mut decoder, input, &mut sink, TURNS);
    let (outcome, out) = pass_on(outcome, sink.into_inner());
    let (status, err) = conclude(ending_of(outcome), err);
    (status, out, err)
}

/// Reads a stream, leniently or not, and writes the verdict line to `out` or the fault line to `err`. Answers the exit status,
/// and the two outputs.
pub(crate) fn check<R: Source, O: Target, E: Target>(
    limits: Limits,
    lenient: bool,
    input: &mut R,
    out: O,
    err: E,
) -> (u8, O, E) {
    let (ending, mut out) = read_through(limits, lenient, input, out);
    let Ending::Finished(_) = ending else {
        let (status, err) = conclude(ending, err);
        return (status, out, err);
    };
    let Err(SinkFault) = ending_line(ending, &mut out) else {
        return (ending.status(), out, err);
    };
    let (status, err) = conclude(Ending::WriteFault, err);
    (status, out, err)
}

/// Reads a stream within these limits, and writes nothing of it.
fn read_through<R: Source, O: Target>(
    limits: Limits,
    lenient: bool,
    input: &mut R,
    out: O,
) -> (Ending, O) {
    let Some(mut decoder) = decoder_within(limits, lenient) else {
        return (Ending::NoMemory, out);
    };
    let mut sink = TextSink::new(out, Nothing);
    let outcome = run(&mut decoder, input, &mut sink, TURNS);
    (ending_of(outcome), sink.into_inner())
}

/// A decoder at the start of a stream, within these limits, lenient or not; none where memory was wanting.
#[cfg_attr(not(feature = "cli"), inline)]
fn decoder_within<'a>(
    limits: Limits,
    lenient: bool,
) -> Option<Decoder> {
    match new_decoder(limits, lenient) {
        Ok(decoder) => Some(decoder),
        Err(NewError::NoMemory) => None,
        Err(NewError::BadLimits(_)) => unreachable!(),
    }
}

/// A decoder, which is lenient or not.
#[cfg_attr(not(feature = "cli"), inline)]
fn new_decoder(
    limits: Limits,
    lenient: bool,
) -> Result<Decoder, NewError> {
    if lenient {
        Decoder::lenient(limits)
    } else {
        Decoder::new(limits)
    }
}

/// How the command ends where a run does.
fn ending_of(outcome: Outcome) -> Ending {
    match outcome {
        Outcome::Finished(finish) => Ending::Finished(finish),
        Outcome::ReadFault => Ending::ReadFault,
        Outcome::SinkFault => Ending::WriteFault,
        Outcome::Turns => Ending::TooManyTurns,
    }
}

/// Passes on what waits in a buffer after a run, unless the target failed in it. Answers how it ends, and the target.
fn pass_on<O: Target>(outcome: Outcome, mut buffered: Buffered<O>) -> (Outcome, O) {
    if let Outcome::SinkFault = outcome {
        return (outcome, buffered.into_inner());
    }
    match buffered.flush() {
        Ok(()) => (outcome, buffered.into_inner()),
        Err(SinkFault) => (Outcome::SinkFault, buffered.into_inner()),
    }
}

/// Writes the verdict line or fault line. Answers the exit status, which is that of a fault where the target fails.
pub fn conclude<E: Target>(ending: Ending, mut err: E) -> (u8, E) {
    match ending_line(ending, &mut err) {
        Ok(()) => (ending.status(), err),
        Err(SinkFault) => (FAULT, err),
    }
}
