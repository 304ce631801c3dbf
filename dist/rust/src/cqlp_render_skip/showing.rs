// Written by dist/erase from crates/cqlp_render_skip/src/showing.rt.
//! A whole stream, shown or checked, with frames passed over.

use crate::cqlp_render_skip::reading::{Shown, show_stream};
use crate::cqlp_decode::SinkFault;
use crate::cqlp_note::{Limits, Source, Target};
use crate::cqlp_render::{TextForm, conclude};
use crate::cqlp_text::exit_status::NOT_WHOLE;
use crate::cqlp_text::{Ending, ending_line};

/// Writes the events of a stream, whose reading is lenient or not, to `out` as text in a form, which is at no page. Of a frame whose body
/// is refused it writes those before the refusal, passes over the rest of the frame, writes the line `skipped OFFSET REASON at AT` to `err`,
/// and goes on with the next header. At the end the verdict line or fault line goes to `err`. Answers the exit status, which is 1 where a
/// frame was passed over and the end is otherwise good, and the two outputs.
///
/// What comes next begins on a new line: of the text of pages a line break follows each frame that was passed over, which ends a row that is
/// cut, and is an empty line where none is. Of rows as JSON or CSV it follows where a page is cut; in CSV after the quote of its field.
pub(crate) fn show_skipping<R: Source, O: Target, E: Target>(
    limits: Limits,
    lenient: bool,
    form: TextForm,
    input: &mut R,
    out: O,
    err: E,
) -> (u8, O, E) {
    report(show_stream(limits, lenient, form, input, out, err))
}

/// Reads a stream, leniently or not, passes over frames as `show_skipping` does, and writes the verdict line to `out` or the fault line to
/// `err`. Answers the exit status, and the two outputs.
pub(crate) fn check_skipping<R: Source, O: Target, E: Target>(
    limits: Limits,
    lenient: bool,
    input: &mut R,
    out: O,
    err: E,
) -> (u8, O, E) {
    let shown = show_stream(limits, lenient, TextForm::Nothing, input, out, err);
    let Shown {
        ending,
        passed_over,
        mut out,
        err,
    } = shown;
    let Ending::Finished(_) = ending else {
        let (status, err) = conclude(ending, err);
        return (status_after(passed_over, status), out, err);
    };
    let Err(SinkFault) = ending_line(ending, &mut out) else {
        return (status_after(passed_over, ending.status()), out, err);
    };
    let (status, err) = conclude(Ending::WriteFault, err);
    (status_after(passed_over, status), out, err)
}

/// Writes the verdict line or fault line of what was shown. Answers the exit status, and the two outputs.
fn report<O: Target, E: Target>(shown: Shown<O, E>) -> (u8, O, E) {
    let Shown {
        ending,
        passed_over,
        out,
        err,
    } = shown;
    let (status, err) = conclude(ending, err);
    (status_after(passed_over, status), out, err)
}

/// The exit status where the end has this one, of a stream of which a frame was passed over, or none.
fn status_after(passed_over: bool, status: u8) -> u8 {
    if passed_over {
        status.max(NOT_WHOLE)
    } else {
        status
    }
}
