// Written by dist/erase from crates/cqlp_capture_merge/src/run.rt.
//! Files of summaries, read and added.

use crate::kit_host::prelude::{KitVec};
use crate::cqlp_capture_merge::files::{FileNames, Place};
use crate::cqlp_capture_merge::lines::{Lines, Step};
use crate::cqlp_capture_merge::merging::Merging;
use crate::cqlp_capture_merge::object::{Entry, NoObject};
use crate::cqlp_capture_merge::refusal::{Refusal, put_refusal};
use crate::cqlp_capture_exchanges::put_summary_objects;
use crate::cqlp_capture_streams::CaptureInput;
use crate::cqlp_capture_summary::Summary;
use crate::cqlp_grammar::SinkFault;
use crate::cqlp_note::{IoFault, Target};
use crate::cqlp_text::exit_status::{DONE, FAULT, NOT_WHOLE};
use crate::cqlp_text::{Ending, Pen, TextWriter, ending_line};
use crate::json::{Error, Scratch, Value};
use crate::kit_std::alloc::{AllocError};

/// How the sum of summaries is written.
#[derive(Clone, Copy)]
pub enum MergedAs {
    /// As the table of `cqlp capture --summary`.
    Table,
    /// As the objects of `cqlp capture --summary --json`.
    Objects,
}

/// Why the files are not read to their end.
enum Fault {
    Read,
    NoMemory,
    /// A line is refused.
    Refused(Place, Refusal),
}

impl From<IoFault> for Fault {
    fn from(_: IoFault) -> Fault {
        Fault::Read
    }
}

impl From<AllocError> for Fault {
    fn from(_: AllocError) -> Fault {
        Fault::NoMemory
    }
}

/// What the lines so far count by, and the number of the file of the last one.
#[derive(Clone, Copy)]
struct Heading {
    by: &'static str,
    file: usize,
}

/// Reads objects of summaries, a line each, adds those of the same name, and writes their sum to `out`, or to `err` why there is none. Answers the exit status
/// and the two outputs. All memory but for an object is taken at the start.
pub fn merge_summaries<I: CaptureInput, O: Target, E: Target>(
    names: FileNames<'_>,
    form: MergedAs,
    input: &mut I,
    out: O,
    err: E,
) -> (u8, O, E) {
    let mut merging = match Merging::new() {
        Ok(merging) => merging,
        Err(AllocError) => return (FAULT, out, report(Ending::NoMemory, err)),
    };
    match read_files(&mut merging, input) {
        Ok(heading) => write(merging.summary(), heading, form, out, err),
        Err(Fault::Refused(place, refusal)) => {
            let (status, err) = refuse(names, place, refusal, err);
            (status, out, err)
        }
        Err(Fault::Read) => (FAULT, out, report(Ending::ReadFault, err)),
        Err(Fault::NoMemory) => (FAULT, out, report(Ending::NoMemory, err)),
    }
}

/// Reads all files. Answers what they count by, which is statements where there are no lines.
fn read_files<I: CaptureInput>(
    merging: &mut Merging,
    input: &mut I,
) -> Result<&'static str, Fault> {
    let mut lines = Lines::new()?;
    let mut scratch = Scratch::new();
    let mut heading = None;
    for file in 0..usize::MAX {
        heading = read_file(
            merging,
            &mut lines,
            &mut scratch,
            heading,
            file,
            input,
        )?;
        if !input.next_file()? {
            break;
        }
    }
    match heading {
        Some(Heading { by, .. }) => Ok(by),
        None => Ok("statement"),
    }
}

/// Reads a file. Answers what its lines and those before count by.
fn read_file<I: CaptureInput>(
    merging: &mut Merging,
    lines: &mut Lines,
    scratch: &mut Scratch,
    before: Option<Heading>,
    file: usize,
    input: &mut I,
) -> Result<Option<Heading>, Fault> {
    let mut heading = before;
    lines.clear();
    for count in 0..u64::MAX {
        let place = Place {
            file,
            line: count + 1,
        };
        match lines.advance(input)? {
            Step::End => break,
            Step::TooLong => return Err(Fault::Refused(place, Refusal::TooLong)),
            Step::Line => {
                if !is_blank(lines.line()) {
                    let found = read_line(merging, lines.line(), scratch, heading, place)?;
                    heading = Some(found);
                }
            }
        }
    }
    merging.end_file();
    Ok(heading)
}

/// Whether there is nothing but white space.
fn is_blank(line: &[u8]) -> bool {
    line.iter()
        .all(|byte| *byte == b' ' || *byte == b'\t' || *byte == b'\r')
}

/// Adds the object of a line. Answers what it counts by.
fn read_line(
    merging: &mut Merging,
    line: &[u8],
    scratch: &mut Scratch,
    before: Option<Heading>,
    place: Place,
) -> Result<Heading, Fault> {
    match Value::from_slice(line, scratch) {
        Ok(value) => read_value(merging, &value, before, place),
        Err(Error::OutOfMemory) => Err(Fault::NoMemory),
        Err(_) => Err(Fault::Refused(place, Refusal::NoObject)),
    }
}

fn read_value(
    merging: &mut Merging,
    value: &Value<'_>,
    before: Option<Heading>,
    place: Place,
) -> Result<Heading, Fault> {
    let Ok(entry) = Entry::of(value) else {
        return Err(Fault::Refused(place, Refusal::NoObject));
    };
    if let Some(refusal) = other_heading(before, entry.by) {
        return Err(Fault::Refused(place, refusal));
    }
    match merging.add(&entry, value) {
        Ok(()) => Ok(Heading {
            by: entry.by,
            file: place.file,
        }),
        Err(NoObject) => Err(Fault::Refused(place, Refusal::NoObject)),
    }
}

/// That a line counts by another heading than the lines before it, if so.
fn other_heading(before: Option<Heading>, by: &'static str) -> Option<Refusal> {
    match before {
        Some(before) if before.by != by => Some(Refusal::Heading {
            by,
            before: before.by,
            file: before.file,
        }),
        Some(_) | None => None,
    }
}

/// Writes a summary. Answers the exit status and the two outputs.
fn write<O: Target, E: Target>(
    summary: &Summary,
    by: &str,
    form: MergedAs,
    mut out: O,
    err: E,
) -> (u8, O, E) {
    match put_merged(summary, by, form, &mut out) {
        Ok(()) => (DONE, out, err),
        Err(SinkFault) => (FAULT, out, report(Ending::WriteFault, err)),
    }
}

fn put_merged<O: Target>(
    summary: &Summary,
    by: &str,
    form: MergedAs,
    out: &mut O,
) -> Result<(), SinkFault> {
    let mut writer = TextWriter::over(out);
    let written = put_in_form(&mut writer, summary, by, form);
    let answer = match written {
        Ok(()) => writer.flush(),
        Err(fault) => Err(fault),
    };
    let _ = writer.into_target();
    answer
}

fn put_in_form<P: Pen>(
    writer: &mut TextWriter<P>,
    summary: &Summary,
    by: &str,
    form: MergedAs,
) -> Result<(), SinkFault> {
    match form {
        MergedAs::Table => summary.put(writer, by),
        MergedAs::Objects => put_summary_objects(writer, by, summary),
    }
}

/// Reports a line that is refused. Answers the exit status.
fn refuse<E: Target>(names: FileNames<'_>, place: Place, refusal: Refusal, mut err: E) -> (u8, E) {
    match put_refusal(names, place, refusal, &mut err) {
        Ok(()) => (NOT_WHOLE, err),
        Err(SinkFault) => (FAULT, err),
    }
}

/// Writes the fault line of an ending. A target that fails has no other.
fn report<E: Target>(ending: Ending, mut err: E) -> E {
    let _ = ending_line(ending, &mut err);
    err
}
