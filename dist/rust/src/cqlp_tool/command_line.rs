// Written by dist/erase from crates/cqlp_tool/src/command_line.rt.
//! The command line, from its words to the exit status.

use crate::kit_host::prelude::{Vec};
use crate::cqlp_tool::capture_files::{CaptureFiles, MorePaths};
use crate::cqlp_tool::conversing::converse;
use crate::cqlp_tool::folder::{Folder, is_folder};
use crate::cqlp_tool::followed_capture::FollowedCapture;
use crate::cqlp_tool::limits::{exchange_limits_of, streams_limits_of};
use crate::cqlp_tool::marks::MARK;
use crate::cqlp_tool::path_lines::PathLines;
use crate::cqlp_tool::progress::Progress;
use crate::cqlp_tool::statements::{Given, Gives, given_for, put_not_given};
use crate::cqlp_capture_events::write_events;
use crate::cqlp_capture_exchanges::{
    Attribute, EndFilter, ExchangeFilter, ExchangeForm, IntervalsAs, LineStyle, Moment, Naming,
    ReplyKind, StatementPart, SummaryBy, ValuesShown, write_exchanges,
};
use crate::cqlp_capture_merge::{FileNames, MergedAs, merge_summaries};
use crate::cqlp_capture_rows::write_rows;
use crate::cqlp_capture_streams::{Buffering, CaptureInput, StreamsLimits, write_streams};
use crate::cqlp_decode::SinkFault;
use crate::cqlp_note::{IoFault, OfStd, Source, Target};
use crate::cqlp_options::{
    AskedEnd, AskedKind, AskedLines, AskedTime, AtRefusal, CaptureOptions, CaptureTask,
    CommandLine, DEFAULT_LIMITS, EventsAs, ExchangeOptions, ExchangesAs, MergeOptions, NoTask,
    Options, RowsAs, SumAs, SummaryBy as AskedBy, Task,
};
use crate::cqlp_render::{TextForm, check, conclude, show, show_as};
use crate::cqlp_render_skip::{check_skipping, show_skipping};
use crate::cqlp_row_text::TablePlace;
use crate::cqlp_text::exit_status::{BAD_COMMAND_LINE, DONE, FAULT};
use crate::cqlp_text::{Ending, PagePlace, cannot_open_line, put_text};
use crate::kit_host::fs::{self, File, Metadata, OpenFile};
use std::io;
use crate::kit_host::net::{Net, TcpListener, TcpStream};
use crate::kit_host::rt::Files;

const NANOSECONDS_PER_MILLISECOND: u64 = 1_000_000;

/// What the program does: `words` are those after its name, and `input` is standard input. Without words that is what
/// `show -` does; with words, what `execute` does with what they are read as. Answers the exit status, and the two
/// outputs.
///
/// What is wrong with a command line is written to `err`, and help that was asked for to `out`.
pub fn command<R, I: CaptureInput, O: Target, E: Target>(
    rt: &R,
    words: &[&str],
    input: &mut I,
    out: O,
    err: E,
) -> (u8, O, E)
where
    R: Files + Net<Listener = TcpListener, Stream = TcpStream>,
{
    let mut nowhere: Option<OfStd<Vec<u8>>> = None;
    command_with_notes(rt, words, input, out, err, &mut nowhere)
}

/// What `command` does; and while a capture of more than 64 MB is read from a file, `notes` is given a line after each further 64 MB. The
/// program gives standard error for it, where that is a terminal.
pub fn command_with_notes<R, I: CaptureInput, O: Target, E: Target, N: Target>(
    rt: &R,
    words: &[&str],
    input: &mut I,
    out: O,
    err: E,
    notes: &mut Option<N>,
) -> (u8, O, E)
where
    R: Files + Net<Listener = TcpListener, Stream = TcpStream>,
{
    if words.is_empty() {
        return show(DEFAULT_LIMITS, input, out, err);
    }
    let line = CommandLine::parse(words);
    execute(rt, line, input, out, err, notes)
}

/// Does what a command line asks for: a task with a stream or a capture, which is standard input or a file, or a conversation; or writes why it
/// starts none. Answers the exit status, and the two outputs.
#[inline(never)]
pub(crate) fn execute<R, I: CaptureInput, O: Target, E: Target, N: Target>(
    rt: &R,
    line: Result<CommandLine<'_>, NoTask>,
    input: &mut I,
    out: O,
    err: E,
    notes: &mut Option<N>,
) -> (u8, O, E)
where
    R: Files + Net<Listener = TcpListener, Stream = TcpStream>,
{
    match line {
        Ok(CommandLine::Stream(options)) => stream(rt, options, input, out, err),
        Ok(CommandLine::Loop { queries }) => converse(rt, queries, out, err),
        Ok(CommandLine::Capture(options)) => capture(rt, options, input, out, err, notes),
        Ok(CommandLine::Merge(options)) => merge(rt, options, input, out, err),
        Err(no_task) => print_no_task(no_task, out, err),
    }
}

/// Does the task with a stream: standard input, or a file that is opened.
#[inline(never)]
fn stream<R: Files, I: Source, O: Target, E: Target>(
    rt: &R,
    options: Options<'_>,
    input: &mut I,
    out: O,
    err: E,
) -> (u8, O, E) {
    if options.file == "-" {
        return perform(options, input, out, err);
    }
    match File::open(rt, options.file) {
        Ok(file) => perform(options, &mut OfStd::new(file), out, err),
        Err(_) => {
            let (status, err) = cannot_open(options.file, err);
            (status, out, err)
        }
    }
}

/// Reads what is asked for of statements that were prepared before, and does the task with a capture.
fn capture<R: Files, I: CaptureInput, O: Target, E: Target, N: Target>(
    rt: &R,
    options: CaptureOptions<'_>,
    input: &mut I,
    out: O,
    err: E,
    notes: &mut Option<N>,
) -> (u8, O, E) {
    match given_for(rt, asked_statements(options.task), gives(options.task)) {
        Ok(given) => capture_knowing(rt, options, given, input, out, err, notes),
        Err(not_given) => {
            let (status, err) = put_not_given(not_given, err);
            (status, out, err)
        }
    }
}

/// Opens the files of a capture, and does the task with them, where this is known of statements. Of a regular file lines are written in blocks; of
/// standard input and any other file, as a pipe, at once. Where files are long, `notes` gets how much of them was read.
fn capture_knowing<'a, R, I: CaptureInput, O: Target, E: Target, N: Target>(
    rt: &'a R,
    options: CaptureOptions<'a>,
    given: Given,
    input: &mut I,
    out: O,
    err: E,
    notes: &mut Option<N>,
) -> (u8, O, E)
where
    R: Files,
{
    if let Some(folder) = missing_folder(rt, options.task) {
        let (status, err) = cannot_open(folder, err);
        return (status, out, err);
    }
    if options.file == "-" && options.follow {
        return follow(rt, &options, given, input, out, err);
    }
    if options.follow {
        return follow_growing(rt, &options, given, out, err);
    }
    if options.file == "-" {
        return read_capture(rt, &options, given, Buffering::Line, input, out, err);
    }
    let Ok(file) = File::open(rt, options.file) else {
        let (status, err) = cannot_open(options.file, err);
        return (status, out, err);
    };
    let more = options.more.as_slice();
    if let Some(path) = missing_file(rt, more) {
        let (status, err) = cannot_open(path, err);
        return (status, out, err);
    }
    let buffering = buffering_for(&file);
    let length = long_length(rt, &file, more);
    let mut files: CaptureFiles<'_, R, I> = CaptureFiles::new(rt, file, MorePaths::Named(more));
    match (notes.take(), length) {
        (Some(notes), Some(length)) => {
            let mut input = Progress::new(files, length, notes);
            read_capture(rt, &options, given, buffering, &mut input, out, err)
        }
        _ => read_capture(rt, &options, given, buffering, &mut files, out, err),
    }
}

/// Does the task with the captures whose paths the input names, a line each, as their lines come.
#[cold]
#[inline(never)]
fn follow<'a, R: Files, I: CaptureInput, O: Target, E: Target>(
    rt: &'a R,
    options: &CaptureOptions<'_>,
    given: Given,
    input: &'a mut I,
    out: O,
    err: E,
) -> (u8, O, E) {
    let mut lines = PathLines::new(input);
    let first = match lines.advance() {
        Ok(true) => File::open(rt, lines.path()).ok(),
        Ok(false) | Err(IoFault) => None,
    };
    let Some(first) = first else {
        let (status, err) = cannot_open(or_none_named(lines.path()), err);
        return (status, out, err);
    };
    let mut files: CaptureFiles<'_, R, I> = CaptureFiles::new(rt, first, MorePaths::Listed(lines));
    let (status, out, err) = read_capture(
        rt,
        options,
        given,
        Buffering::Line,
        &mut files,
        out,
        err,
    );
    match files.missing() {
        Some(path) => {
            let (status, err) = cannot_open(or_none_named(path), err);
            (status, out, err)
        }
        None => (status, out, err),
    }
}

/// Does the task with a file as it grows, or with the captures of a folder, in the order in which they are written, until standard input is a pipe that
/// has ended.
#[cold]
#[inline(never)]
fn follow_growing<'a, R: Files, O: Target, E: Target>(
    rt: &'a R,
    options: &CaptureOptions<'a>,
    given: Given,
    out: O,
    err: E,
) -> (u8, O, E) {
    let Ok(Some(mut capture)) = FollowedCapture::open(rt, options.file) else {
        let (status, err) = cannot_open(options.file, err);
        return (status, out, err);
    };
    let line = Buffering::Line;
    let (status, out, err) = read_capture(rt, options, given, line, &mut capture, out, err);
    match capture.missing() {
        Some(path) => {
            let (status, err) = cannot_open(path, err);
            (status, out, err)
        }
        None => (status, out, err),
    }
}

/// What cannot be opened, where standard input named this.
fn or_none_named(path: &str) -> &str {
    if path.is_empty() {
        "a capture: standard input names none"
    } else {
        path
    }
}

/// Opens files of summaries, and adds these.
#[inline(never)]
fn merge<'a, R: Files, I: CaptureInput, O: Target, E: Target>(
    rt: &'a R,
    options: MergeOptions<'a>,
    input: &mut I,
    out: O,
    err: E,
) -> (u8, O, E) {
    let first = options.file;
    let form = merged_as(options.form);
    let more = options.more.as_slice();
    if first == "-" {
        return merge_summaries(FileNames { first, more }, form, input, out, err);
    }
    let Ok(file) = File::open(rt, first) else {
        let (status, err) = cannot_open(first, err);
        return (status, out, err);
    };
    if let Some(path) = missing_file(rt, more) {
        let (status, err) = cannot_open(path, err);
        return (status, out, err);
    }
    let mut files: CaptureFiles<'_, R, I> = CaptureFiles::new(rt, file, MorePaths::Named(more));
    merge_summaries(
        FileNames { first, more },
        form,
        &mut files,
        out,
        err,
    )
}

fn merged_as(asked: SumAs) -> MergedAs {
    match asked {
        SumAs::Table => MergedAs::Table,
        SumAs::Json => MergedAs::Objects,
    }
}

/// The first of these files that cannot be opened.
fn missing_file<'a, R: Files>(rt: &R, paths: &[&'a str]) -> Option<&'a str> {
    for path in paths {
        if !is_found(rt, *path) {
            return Some(*path);
        }
    }
    None
}

/// Whether a regular file can be opened, or there is another one, as a pipe. That is not opened before its turn, since who writes to it would lose
/// its reader.
fn is_found<R: Files>(rt: &R, path: &str) -> bool {
    match fs::metadata(rt, path) {
        Ok(metadata) if metadata.is_file() => File::open(rt, path).is_ok(),
        Ok(_) => true,
        Err(_) => false,
    }
}

/// The folder that a task with a capture asks for, if there is none with this path.
fn missing_folder<'a, R: Files>(rt: &R, asked: CaptureTask<'a>) -> Option<&'a str> {
    match asked {
        CaptureTask::Streams { folder } if !is_folder(rt, folder) => Some(folder),
        CaptureTask::Streams { .. }
        | CaptureTask::Exchanges(_)
        | CaptureTask::Events { .. }
        | CaptureTask::Rows { .. } => None,
    }
}

/// The file with statements that a task with a capture asks for.
fn asked_statements<'a>(asked: CaptureTask<'a>) -> Option<&'a str> {
    match asked {
        CaptureTask::Exchanges(asked) => asked.statements,
        CaptureTask::Rows { statements, .. } => statements,
        CaptureTask::Streams { .. } | CaptureTask::Events { .. } => None,
    }
}

/// What a task with a capture takes of a file with statements.
fn gives(asked: CaptureTask<'_>) -> Gives {
    match asked {
        CaptureTask::Rows { .. } => Gives::Types,
        CaptureTask::Exchanges(_) | CaptureTask::Streams { .. } | CaptureTask::Events { .. } => {
            Gives::Texts
        }
    }
}

/// When the lines of a capture in this file are written.
fn buffering_for<F: OpenFile>(file: &F) -> Buffering {
    match file.metadata() {
        Ok(metadata) if metadata.is_file() => Buffering::Block,
        _ => Buffering::Line,
    }
}

/// How long these files are together, if they are regular ones and longer than 64 MB.
fn long_length<R: Files, F: OpenFile>(rt: &R, first: &F, more: &[&str]) -> Option<u64> {
    let mut length = regular_length(first.metadata())?;
    for path in more {
        length = length.saturating_add(regular_length(fs::metadata(rt, *path))?);
    }
    if length > MARK { Some(length) } else { None }
}

/// How long a file is, if it is a regular one.
fn regular_length(metadata: io::Result<Metadata>) -> Option<u64> {
    match metadata {
        Ok(metadata) if metadata.is_file() => Some(metadata.len()),
        _ => None,
    }
}

/// Does the task with a capture, whose folder is there if it asks for one, where this is known of statements. Out of line, as what else is seldom called:
/// each copy would have the options on the stack once more, whose pages cost more than a small capture.
#[inline(never)]
fn read_capture<R: Files, I: CaptureInput, O: Target, E: Target>(
    rt: &R,
    options: &CaptureOptions<'_>,
    given: Given,
    buffering: Buffering,
    input: &mut I,
    out: O,
    err: E,
) -> (u8, O, E) {
    let Given { texts, types } = given;
    let ports = options.ports.as_slice();
    let limits = streams_limits_of(&options.limits, buffering);
    match options.task {
        CaptureTask::Streams { folder } => {
            split_to_folder(rt, folder, limits, ports, input, out, err)
        }
        CaptureTask::Exchanges(asked) => {
            write_exchanges(
                limits,
                exchange_limits_of(&options.limits),
                ports,
                texts,
                filter_of(asked),
                form_of(asked.form),
                buffering,
                input,
                out,
                err,
            )
        }
        CaptureTask::Events { connection } => {
            write_events(limits, ports, connection, input, out, err)
        }
        CaptureTask::Rows { connection, .. } => {
            write_rows(
                limits,
                ports,
                types,
                connection,
                input,
                out,
                err,
            )
        }
    }
}

/// Splits a capture into the streams of its connections, whose files are made in the folder.
#[inline(never)]
fn split_to_folder<R: Files, I: CaptureInput, O: Target, E: Target>(
    rt: &R,
    folder: &str,
    limits: StreamsLimits,
    ports: &[u16],
    input: &mut I,
    out: O,
    err: E,
) -> (u8, O, E) {
    let folder = Folder::new(rt, folder);
    let (status, _, out, err) = write_streams(limits, ports, input, folder, out, err);
    (status, out, err)
}

/// What is asked of exchanges, with the time in nanoseconds.
fn filter_of(asked: ExchangeOptions<'_>) -> ExchangeFilter {
    let ExchangeOptions {
        slow,
        errors,
        opcode,
        kind,
        client,
        node,
        since,
        until,
        statement,
        pattern,
        statements: _,
        connection,
        form: _,
    } = asked;
    ExchangeFilter {
        slow: slow.map(|ms| u64::from(ms) * NANOSECONDS_PER_MILLISECOND),
        errors,
        opcode,
        kind: kind.map(reply_kind_of),
        client: client.map(end_filter_of),
        node: node.map(end_filter_of),
        since: moment_of(since),
        until: moment_of(until),
        statement: statement.map(StatementPart::of),
        pattern,
        connection,
    }
}

fn reply_kind_of(asked: AskedKind) -> ReplyKind {
    match asked {
        AskedKind::Result(kind) => ReplyKind::Result(kind),
        AskedKind::Error(code) => ReplyKind::Error(code),
        AskedKind::Response(opcode) => ReplyKind::Response(opcode),
    }
}

fn end_filter_of(asked: AskedEnd) -> EndFilter {
    EndFilter {
        address: asked.address,
        port: asked.port,
    }
}

fn moment_of(asked: Option<AskedTime>) -> Option<Moment> {
    match asked {
        Some(AskedTime::After(nanoseconds)) => Some(Moment::After(nanoseconds)),
        Some(AskedTime::At(nanoseconds)) => Some(Moment::At(nanoseconds)),
        None => None,
    }
}

fn form_of(asked: ExchangesAs) -> ExchangeForm {
    match asked {
        ExchangesAs::Lines { lines, values } => ExchangeForm::Lines(style_of(lines, values)),
        ExchangesAs::Json { values } => ExchangeForm::Json(values_shown(values)),
        ExchangesAs::Csv => ExchangeForm::Csv,
        ExchangesAs::Summary(by) => ExchangeForm::Summary(summary_by(by)),
        ExchangesAs::SummaryJson(by) => ExchangeForm::SummaryJson(summary_by(by)),
        ExchangesAs::Intervals { seconds, json } => {
            ExchangeForm::Intervals(seconds, intervals_as(json))
        }
        ExchangesAs::Histogram => ExchangeForm::Histogram,
    }
}

fn intervals_as(is_json: bool) -> IntervalsAs {
    if is_json {
        IntervalsAs::Json
    } else {
        IntervalsAs::Lines
    }
}

fn values_shown(asked: bool) -> ValuesShown {
    if asked {
        ValuesShown::Yes
    } else {
        ValuesShown::No
    }
}

fn style_of(asked: AskedLines, values: bool) -> LineStyle {
    LineStyle {
        is_utc: asked.utc,
        has_ends: asked.ends,
        values: values_shown(values),
    }
}

fn summary_by(asked: AskedBy) -> SummaryBy {
    match asked {
        AskedBy::Statement { literal: false } => SummaryBy::Statement(Naming::Fingerprint),
        AskedBy::Statement { literal: true } => SummaryBy::Statement(Naming::Literal),
        AskedBy::Table => SummaryBy::Table,
        AskedBy::Client => SummaryBy::Attribute(Attribute::Client),
        AskedBy::Node => SummaryBy::Attribute(Attribute::Node),
        AskedBy::Opcode => SummaryBy::Attribute(Attribute::Opcode),
        AskedBy::Error => SummaryBy::Attribute(Attribute::Error),
    }
}

/// Does the task with a stream.
fn perform<I: Source, O: Target, E: Target>(
    options: Options<'_>,
    input: &mut I,
    out: O,
    err: E,
) -> (u8, O, E) {
    let (limits, lenient) = (options.limits, options.lenient);
    match options.task {
        Task::Show(form, AtRefusal::End) => {
            show_as(limits, lenient, form_of_events(form), input, out, err)
        }
        Task::Show(form, AtRefusal::Skip) => {
            show_skipping(limits, lenient, form_of_events(form), input, out, err)
        }
        Task::Rows(form, AtRefusal::End) => {
            show_as(limits, lenient, form_of_rows(form), input, out, err)
        }
        Task::Rows(form, AtRefusal::Skip) => {
            show_skipping(limits, lenient, form_of_rows(form), input, out, err)
        }
        Task::Check(AtRefusal::End) => check(limits, lenient, input, out, err),
        Task::Check(AtRefusal::Skip) => check_skipping(limits, lenient, input, out, err),
    }
}

/// The form of the text of events.
fn form_of_events(form: EventsAs) -> TextForm {
    match form {
        EventsAs::Lines => TextForm::Lines,
        EventsAs::Json => TextForm::JsonLines,
    }
}

/// The form of the text of rows, before the first page.
fn form_of_rows(form: RowsAs) -> TextForm {
    match form {
        RowsAs::Text => TextForm::Pages(PagePlace::new()),
        RowsAs::Json => TextForm::JsonRows(TablePlace::new()),
        RowsAs::Csv => TextForm::CsvRows(TablePlace::new()),
    }
}

/// Reports that a file cannot be opened. Answers the exit status.
pub(crate) fn cannot_open<E: Target>(file: &str, mut err: E) -> (u8, E) {
    match cannot_open_line(file, &mut err) {
        Ok(()) | Err(SinkFault) => (FAULT, err),
    }
}

/// Writes what there is in place of options: help or the version to `out`, and a mistake to `err`.
fn print_no_task<O: Target, E: Target>(no_task: NoTask, out: O, err: E) -> (u8, O, E) {
    match no_task {
        NoTask::Help(text) => help(text.as_str(), out, err),
        NoTask::Mistake(text) => {
            let (status, err) = complain(text.as_str(), err);
            (status, out, err)
        }
        NoTask::NoMemory => {
            let (status, err) = conclude(Ending::NoMemory, err);
            (status, out, err)
        }
    }
}

/// Writes help that was asked for.
fn help<O: Target, E: Target>(text: &str, mut out: O, err: E) -> (u8, O, E) {
    match put_text(text, &mut out) {
        Ok(()) => (DONE, out, err),
        Err(SinkFault) => {
            let (status, err) = conclude(Ending::WriteFault, err);
            (status, out, err)
        }
    }
}

/// Writes what is wrong with a command line. Answers the exit status.
fn complain<E: Target>(text: &str, mut err: E) -> (u8, E) {
    match put_text(text, &mut err) {
        Ok(()) => (BAD_COMMAND_LINE, err),
        Err(SinkFault) => (FAULT, err),
    }
}
