// Written by dist/erase from crates/cqlp_capture_streams/src/ending.rt.
//! How the reading of a capture ends: its line, and its exit status.

use crate::cqlp_capture_streams::busiest::put_busiest;
use crate::cqlp_capture_streams::capturing::CaptureRead;
use crate::cqlp_capture_streams::fault::StreamsFault;
use crate::cqlp_capture_streams::files::FileFault;
use crate::cqlp_capture_streams::last_words::LastWords;
use crate::cqlp_capture_streams::lines::file_line;
use crate::cqlp_capture_streams::skipped::put_skipped;
use crate::cqlp_capture_streams::summary::{put_count, put_files, put_head, put_order, put_reasons, put_table};
use crate::cqlp_capture::{CaptureEnd, CaptureReason, CaptureRefusal};
use crate::cqlp_grammar::SinkFault;
use crate::cqlp_note::Target;
use crate::cqlp_text::exit_status::{DONE, FAULT, NOT_WHOLE};
use crate::cqlp_text::{Pen, TextWriter, put_text};

/// Writes the last line where the reading of a capture ends so: how it ends, its packets, segments and connections, then a caller's own
/// words, and then the counts that are not 0; and before it the ports that most segments have, where there was no connection with one of
/// these ports, and a caller's note, where there is one. After a fault it writes the line of that.
/// Answers the exit status, which is that of a fault where the target fails, and with a note or losses not that of a whole
/// capture. No memory is asked for.
pub fn conclude_capture<W: LastWords, E: Target>(
    answer: &Result<CaptureRead, StreamsFault>,
    ports: &[u16],
    last: &W,
    err: E,
) -> (u8, E) {
    match answer {
        Ok(read) => conclude_read(read, ports, last, err),
        Err(fault) => conclude_fault(fault, err),
    }
}

/// Writes the line of a fault. Answers the exit status of a fault.
fn conclude_fault<E: Target>(fault: &StreamsFault, mut err: E) -> (u8, E) {
    match fault_line(fault, &mut err) {
        Ok(()) | Err(SinkFault) => (FAULT, err),
    }
}

/// Writes a note, where there is one, and the line of a capture that was read to its end.
fn conclude_read<W: LastWords, E: Target>(
    read: &CaptureRead,
    ports: &[u16],
    last: &W,
    mut err: E,
) -> (u8, E) {
    match read_line(read, ports, last, &mut err) {
        Ok(()) => (noted_status(read, last), err),
        Err(SinkFault) => (FAULT, err),
    }
}

/// The exit status of a capture that was read to its end, or to where it is refused. With a note it is not that of a whole one.
fn noted_status<W: LastWords>(read: &CaptureRead, last: &W) -> u8 {
    if last.has_note() || read.has_losses() {
        NOT_WHOLE
    } else {
        end_status(&read.end)
    }
}

fn end_status(end: &CaptureEnd) -> u8 {
    match end {
        CaptureEnd::Whole { .. } => DONE,
        CaptureEnd::Cut { .. } | CaptureEnd::Refused(_) => NOT_WHOLE,
    }
}

/// Appends a note, where there is one, and the line of a capture that was read to its end.
fn read_line<W: LastWords, E: Target>(
    read: &CaptureRead,
    ports: &[u16],
    last: &W,
    target: &mut E,
) -> Result<(), SinkFault> {
    let mut writer = TextWriter::over(target);
    let Ok(()) = put_all(&mut writer, read, ports, last) else {
        let _ = writer.into_target();
        return Err(SinkFault);
    };
    let passed_on = writer.flush();
    let _ = writer.into_target();
    passed_on
}

/// Takes the busiest ports, where there was no connection, a note, and the last line.
fn put_all<P: Pen, W: LastWords>(
    writer: &mut TextWriter<P>,
    read: &CaptureRead,
    ports: &[u16],
    last: &W,
) -> Result<(), SinkFault> {
    put_busiest(writer, read, ports)?;
    put_noted(writer, read, last)
}

fn put_noted<P: Pen, W: LastWords>(
    writer: &mut TextWriter<P>,
    read: &CaptureRead,
    last: &W,
) -> Result<(), SinkFault> {
    last.put_note(writer)?;
    put_read(writer, read, last)
}

/// Takes the line of a capture that was read to its end.
fn put_read<P: Pen, W: LastWords>(
    writer: &mut TextWriter<P>,
    read: &CaptureRead,
    last: &W,
) -> Result<(), SinkFault> {
    put_verdict(writer, &read.end)?;
    put_head(writer, read)?;
    writer.put(b" ")?;
    last.put_words(writer)?;
    put_order(writer, &read.order)?;
    put_count(writer, "Snapped", read.packets.snapped)?;
    put_table(writer, &read.connections)?;
    put_reasons(writer, &read.packets.without)?;
    put_skipped(writer, &read.packets.skipped)?;
    put_files(writer, &read.packets)?;
    writer.put(b"\n")
}

fn put_verdict<P: Pen>(writer: &mut TextWriter<P>, end: &CaptureEnd) -> Result<(), SinkFault> {
    match end {
        CaptureEnd::Whole { bytes } => put_whole(writer, *bytes),
        CaptureEnd::Cut { at, bytes } => put_cut(writer, *at, *bytes),
        CaptureEnd::Refused(refusal) => put_refused(writer, *refusal),
    }
}

fn put_whole<P: Pen>(writer: &mut TextWriter<P>, bytes: u64) -> Result<(), SinkFault> {
    writer.put(b"whole ")?;
    writer.put_number(bytes)
}

fn put_cut<P: Pen>(writer: &mut TextWriter<P>, at: u64, bytes: u64) -> Result<(), SinkFault> {
    writer.put(b"cut ")?;
    writer.put_number(at)?;
    writer.put(b" ")?;
    writer.put_number(bytes)
}

fn put_refused<P: Pen>(writer: &mut TextWriter<P>, refusal: CaptureRefusal) -> Result<(), SinkFault> {
    writer.put_str(hint(refusal.why))?;
    writer.put(b"refused ")?;
    writer.put_number(refusal.at)?;
    writer.put(b" ")?;
    writer.put_str(reason_name(refusal.why))
}

fn reason_name(why: CaptureReason) -> &'static str {
    match why {
        CaptureReason::Gzip => "Gzip",
        CaptureReason::UnknownMagic => "UnknownMagic",
        CaptureReason::UnknownVersion => "UnknownVersion",
        CaptureReason::FileTooLong => "FileTooLong",
        CaptureReason::UnknownByteOrder => "UnknownByteOrder",
        CaptureReason::BadBlockLength => "BadBlockLength",
        CaptureReason::UnequalBlockLengths => "UnequalBlockLengths",
    }
}

/// A line before the last one, where the file is compressed by gzip.
fn hint(why: CaptureReason) -> &'static str {
    match why {
        CaptureReason::Gzip => "cqlp: compressed by gzip: gunzip -c FILE | cqlp capture -\n",
        CaptureReason::UnknownMagic
        | CaptureReason::UnknownVersion
        | CaptureReason::FileTooLong
        | CaptureReason::UnknownByteOrder
        | CaptureReason::BadBlockLength
        | CaptureReason::UnequalBlockLengths => "",
    }
}

/// Appends the line of a fault. Takes no memory.
fn fault_line<E: Target>(fault: &StreamsFault, err: &mut E) -> Result<(), SinkFault> {
    match fault {
        StreamsFault::Read => put_text("cqlp: read fault\n", err),
        StreamsFault::Write => put_text("cqlp: write fault\n", err),
        StreamsFault::TooManyTurns => put_text("cqlp: too many turns\n", err),
        StreamsFault::NoMemory => put_text("cqlp: no memory\n", err),
        StreamsFault::File(FileFault::NoMemory) => put_text("cqlp: no memory\n", err),
        StreamsFault::File(FileFault::CannotMake(file)) => file_line("make", *file, err),
        StreamsFault::File(FileFault::CannotWrite(file)) => file_line("write", *file, err),
        StreamsFault::File(FileFault::CannotKeep(file)) => file_line("keep", *file, err),
    }
}
