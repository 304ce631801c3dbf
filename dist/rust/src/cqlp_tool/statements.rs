// Written by dist/erase from crates/cqlp_tool/src/statements.rt.
//! What a file gives of statements that were prepared before a capture.

use crate::cqlp_tool::command_line::cannot_open;
use crate::cqlp_decode::SinkFault;
use crate::cqlp_note::{OfStd, Target};
use crate::cqlp_render::conclude;
use crate::cqlp_statement_file::{StatementTexts, StatementsFault, read_statements};
use crate::cqlp_statement_types::{StatementTypes, read_statement_types};
use crate::cqlp_text::exit_status::{FAULT, NOT_WHOLE};
use crate::cqlp_text::{Ending, Pen, TextWriter};
use crate::kit_host::fs::File;
use crate::kit_host::rt::Files;

/// What is known of statements that were prepared before a capture.
pub(crate) struct Given {
    pub(crate) texts: StatementTexts,
    pub(crate) types: StatementTypes,
}

/// What is taken of a file.
#[derive(Clone, Copy)]
pub(crate) enum Gives {
    Texts,
    Types,
}

/// Why a file gives nothing.
#[derive(Clone, Copy)]
pub(crate) enum NotGiven<'a> {
    /// The file cannot be opened.
    NotOpened {
        file: &'a str,
    },
    /// It has none.
    Fault {
        file: &'a str,
        fault: StatementsFault,
    },
}

/// What the file gives that is asked for, and nothing where none is.
pub(crate) fn given_for<'a, R: Files>(
    rt: &R,
    asked: Option<&'a str>,
    gives: Gives,
) -> Result<Given, NotGiven<'a>> {
    match asked {
        Some(file) => given_in(rt, file, gives),
        None => Ok(Given {
            texts: StatementTexts::new(),
            types: StatementTypes::new(),
        }),
    }
}

fn given_in<'a, R: Files>(
    rt: &R,
    file: &'a str,
    gives: Gives,
) -> Result<Given, NotGiven<'a>> {
    match File::open(rt, file) {
        Ok(opened) => match read_given(rt, opened, gives) {
            Ok(given) => Ok(given),
            Err(fault) => Err(NotGiven::Fault { file, fault }),
        },
        Err(_) => Err(NotGiven::NotOpened { file }),
    }
}

fn read_given<R: Files>(
    rt: &R,
    file: R::File,
    gives: Gives,
) -> Result<Given, StatementsFault> {
    let mut file = OfStd::new(file);
    match gives {
        Gives::Texts => Ok(Given {
            texts: read_statements(&mut file)?,
            types: StatementTypes::new(),
        }),
        Gives::Types => Ok(Given {
            texts: StatementTexts::new(),
            types: read_statement_types(&mut file)?,
        }),
    }
}

/// Reports why a file gives nothing. Answers the exit status: 1 where the file has something else, and 3 where a file or the memory failed.
pub(crate) fn put_not_given<E: Target>(not_given: NotGiven<'_>, err: E) -> (u8, E) {
    match not_given {
        NotGiven::NotOpened { file } => cannot_open(file, err),
        NotGiven::Fault { file, fault } => put_fault(file, fault, err),
    }
}

fn put_fault<E: Target>(file: &str, fault: StatementsFault, err: E) -> (u8, E) {
    match fault {
        StatementsFault::Read => conclude(Ending::ReadFault, err),
        StatementsFault::NoMemory => conclude(Ending::NoMemory, err),
        StatementsFault::NoObject { line } => put_bad(file, Some(line), NO_OBJECT, err),
        StatementsFault::TooLong { line } => put_bad(file, Some(line), TOO_LONG, err),
        StatementsFault::NoStatement => put_bad(file, None, NO_STATEMENT, err),
        StatementsFault::NoColumn => put_bad(file, None, NO_COLUMN, err),
    }
}

const NO_OBJECT: &str =
    "no row of system.prepared_statements, system_schema.columns or system_schema.types";

const TOO_LONG: &str = "a line of more than 1048576 bytes";

const NO_STATEMENT: &str =
    "no statement; write it by cqlsh -e \"SELECT JSON * FROM system.prepared_statements\"";

const NO_COLUMN: &str =
    "no column; add what cqlsh -e \"SELECT JSON * FROM system_schema.columns\" writes";

/// Writes what is wrong with a file, or with a line of it.
fn put_bad<E: Target>(file: &str, line: Option<u64>, words: &str, mut err: E) -> (u8, E) {
    let mut writer = TextWriter::over(&mut err);
    let written = put_words(&mut writer, file, line, words).and(writer.flush());
    let _ = writer.into_target();
    match written {
        Ok(()) => (NOT_WHOLE, err),
        Err(SinkFault) => (FAULT, err),
    }
}

fn put_words<P: Pen>(
    writer: &mut TextWriter<P>,
    file: &str,
    line: Option<u64>,
    words: &str,
) -> Result<(), SinkFault> {
    writer.put(b"cqlp: ")?;
    writer.put_in_one_line(file.as_bytes())?;
    if let Some(line) = line {
        writer.put(b":")?;
        writer.put_number(line)?;
    }
    writer.put(b": ")?;
    writer.put(words.as_bytes())?;
    writer.put(b"\n")
}
