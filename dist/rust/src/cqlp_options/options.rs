// Written by dist/erase from crates/cqlp_options/src/options.rt.
//! What is asked for with a stream.

use crate::cqlp_options::matched::{flag, number, path};
use crate::clap::ArgMatches;
use crate::cqlp_note::Limits;

/// What is done where a frame's body is refused. Where its header is, the reading ends.
#[derive(Clone, Copy)]
pub enum AtRefusal {
    /// The reading ends there.
    End,
    /// What is left of the frame is passed over, and the reading goes on behind it.
    Skip,
}

impl AtRefusal {
    fn matched(matches: &ArgMatches<'_>) -> AtRefusal {
        if flag(matches, "skip") {
            AtRefusal::Skip
        } else {
            AtRefusal::End
        }
    }
}

/// How events are written.
#[derive(Clone, Copy)]
pub enum EventsAs {
    /// A line of text for each.
    Lines,
    /// A JSON object for each, in a line.
    Json,
}

impl EventsAs {
    fn matched(matches: &ArgMatches<'_>) -> EventsAs {
        if flag(matches, "json") {
            EventsAs::Json
        } else {
            EventsAs::Lines
        }
    }
}

/// How the rows of pages are written.
#[derive(Clone, Copy)]
pub enum RowsAs {
    /// The text of pages.
    Text,
    /// A JSON array for each row, in a line.
    Json,
    /// A record of CSV for each row.
    Csv,
}

impl RowsAs {
    fn matched(matches: &ArgMatches<'_>) -> RowsAs {
        if flag(matches, "json") {
            RowsAs::Json
        } else if flag(matches, "csv") {
            RowsAs::Csv
        } else {
            RowsAs::Text
        }
    }
}

/// What the program does with a stream.
#[derive(Clone, Copy)]
pub enum Task {
    /// Writes its events, and the verdict beside them.
    Show(EventsAs, AtRefusal),
    /// Writes its pages, and the verdict beside them.
    Rows(RowsAs, AtRefusal),
    /// Writes the verdict alone.
    Check(AtRefusal),
}

impl Task {
    /// The task that a subcommand names, with what its words were matched to.
    fn matched(name: &str, matches: &ArgMatches<'_>) -> Option<Task> {
        let at_refusal = AtRefusal::matched(matches);
        match name {
            "show" => Some(Task::Show(EventsAs::matched(matches), at_refusal)),
            "rows" => Some(Task::Rows(RowsAs::matched(matches), at_refusal)),
            "check" => Some(Task::Check(at_refusal)),
            _ => None,
        }
    }
}

/// The limits of the program where none are given.
pub const DEFAULT_LIMITS: Limits = Limits::DEFAULT;

/// A task with a stream.
#[derive(Clone, Copy)]
pub struct Options<'a> {
    pub task: Task,
    pub limits: Limits,
    /// Whether a content that its type does not have, bytes after the last field of a tuple or a user-defined value, and the cells of a type
    /// with an unknown id are taken as raw bytes, and read on behind them.
    pub lenient: bool,
    /// The path of the stream's file, or `-` for standard input.
    pub file: &'a str,
}

impl<'a> Options<'a> {
    /// What the words of the task with this name were matched to, if its limits are in their ranges.
    pub(crate) fn matched(name: &str, matches: &ArgMatches<'a>) -> Option<Options<'a>> {
        let task = Task::matched(name, matches)?;
        let file = path(matches, "file")?;
        let limits = limits_of(matches);
        let lenient = flag(matches, "lenient");
        match limits.check() {
            Ok(()) => Some(Options {
                task,
                limits,
                lenient,
                file,
            }),
            Err(_) => None,
        }
    }
}

/// The limits that are given, and those of `Limits::DEFAULT` in place of the others.
fn limits_of(matches: &ArgMatches<'_>) -> Limits {
    let Limits {
        text,
        cell,
        entries,
        depth,
        ..
    } = Limits::DEFAULT;
    Limits {
        text: number(matches, "text").unwrap_or(text),
        cell: number(matches, "cell").unwrap_or(cell),
        entries: number(matches, "entries").unwrap_or(entries),
        depth: number(matches, "depth").unwrap_or(depth),
        types: !flag(matches, "raw"),
        parts: flag(matches, "parts"),
    }
}
