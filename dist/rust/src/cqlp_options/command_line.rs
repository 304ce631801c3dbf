// Written by dist/erase from crates/cqlp_options/src/command_line.rt.
//! Command lines.

use crate::kit_host::prelude::{format};
use crate::cqlp_options::bad_value::{BadValue, NoLine};
use crate::cqlp_options::capture::CaptureOptions;
use crate::cqlp_options::matched::short_number;
use crate::cqlp_options::merge::MergeOptions;
use crate::cqlp_options::no_task::{NoTask, no_task_of};
use crate::cqlp_options::options::Options;
use crate::cqlp_options::program::program;
use crate::cqlp_options::reported::report_all;
use crate::clap::error::ErrorKind;
use crate::clap::{ArgMatches, Command, Error};
use crate::cqlp_note::LimitRange;
use crate::kit_std::alloc::{AllocError};
use crate::kit_host::text::AsStr;

/// How many queries a conversation may have.
pub const QUERIES: LimitRange = LimitRange {
    least: 1,
    greatest: 1_000,
};

/// What a command line asks for.
pub enum CommandLine<'a> {
    /// A task with a stream.
    Stream(Options<'a>),
    /// A conversation of a client and a server, with this many queries: 1 to 1,000.
    Loop { queries: u16 },
    /// A task with a capture.
    Capture(CaptureOptions<'a>),
    /// Summaries are added.
    Merge(MergeOptions<'a>),
}

impl<'a> CommandLine<'a> {
    /// Reads the words after the program's name. What is no command line of the program, and a request for help or the
    /// version, is an error, whose text says what is wrong or what was asked for.
    pub fn parse(words: &'a [&'a str]) -> Result<CommandLine<'a>, NoTask> {
        match parsed(words) {
            Ok(line) => Ok(line),
            Err(error) => Err(no_task(words, &error)),
        }
    }

    /// Whether a file that it names has this path.
    pub fn has_file(&self, path: &str) -> bool {
        match self {
            CommandLine::Stream(options) => options.file == path,
            CommandLine::Loop { .. } => false,
            CommandLine::Capture(options) => options.file == path || options.more.contains(&path),
            CommandLine::Merge(options) => options.file == path || options.more.contains(&path),
        }
    }

    /// Whether it names more than one file.
    pub fn has_several_files(&self) -> bool {
        match self {
            CommandLine::Capture(options) => !options.more.is_empty(),
            CommandLine::Merge(options) => !options.more.is_empty(),
            CommandLine::Stream(_) | CommandLine::Loop { .. } => false,
        }
    }
}

/// What there is in place of a command line. The parser reports words as they are, so for its text they are read once
/// more, each in one line.
fn no_task(words: &[&str], error: &Error) -> NoTask {
    let Ok(texts) = report_all(words) else {
        return NoTask::NoMemory;
    };
    match parsed(&texts) {
        Ok(_) => no_task_of(error),
        Err(error) => no_task_of(&error),
    }
}

fn parsed<'a, S: AsStr>(words: &'a [S]) -> Result<CommandLine<'a>, Error> {
    let mut program = program()?;
    let matches = program.try_get_matches_from_mut(words)?;
    match line_of(&matches) {
        Ok(line) => Ok(line),
        Err(NoLine::BadValue(bad)) => Err(bad_value(&mut program, bad)),
        Err(NoLine::NoMemory) => Err(Error::from(AllocError)),
    }
}

fn bad_value(program: &mut Command<'_>, bad: BadValue) -> Error {
    match mistake_of(program, bad) {
        Ok(error) => error,
        Err(error) => Error::from(error),
    }
}

/// The mistake that a bad value is; of a pattern the place of its fault too.
fn mistake_of(
    program: &mut Command<'_>,
    bad: BadValue,
) -> Result<Error, AllocError> {
    let BadValue::Pattern { fault, character } = bad else {
        return program.error(ErrorKind::ValueValidation, bad.text());
    };
    let fault = fault.text();
    let text = format!(
        "invalid value for '--statement-regex <REGEX>': at character {character}, {fault}"
    )?;
    program.error(ErrorKind::ValueValidation, &text)
}

/// What the words of a command line were matched to, if its values are good.
fn line_of<'a>(matches: &ArgMatches<'a>) -> Result<CommandLine<'a>, NoLine> {
    match matches.subcommand().ok_or(BadValue::Range)? {
        ("loop", matches) => {
            let queries = queries_of(matches).ok_or(BadValue::Range)?;
            Ok(CommandLine::Loop { queries })
        }
        ("capture", matches) => {
            let options = CaptureOptions::matched(matches)?;
            Ok(CommandLine::Capture(options))
        }
        ("merge", matches) => {
            let options = MergeOptions::matched(matches)?;
            Ok(CommandLine::Merge(options))
        }
        (name, matches) => {
            let options = Options::matched(name, matches).ok_or(BadValue::Range)?;
            Ok(CommandLine::Stream(options))
        }
    }
}

fn queries_of(matches: &ArgMatches<'_>) -> Option<u16> {
    let queries = short_number(matches, "queries")?;
    if QUERIES.contains(u32::from(queries)) {
        Some(queries)
    } else {
        None
    }
}
