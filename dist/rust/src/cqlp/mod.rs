// Written by dist/erase from crates/cqlp/src/main.rt.
//! Reads streams of the CQL native protocol v4, as its words say, and writes what is in them; or has a client and a server talk.

use crate::kit_host::prelude::{HostRuntime, eprintln};
mod screen;
mod terminal;
mod words;

use crate::cqlp::screen::Screen;
use crate::cqlp::terminal::table_for;
use crate::cqlp::words::{Argument, NotRead, read_words, redirect, texts};
use crate::cqlp_note::OfStd;
use crate::cqlp_text::cannot_open_line;
use crate::cqlp_text::exit_status::FAULT;
use crate::cqlp_tool::command_with_notes;
use crate::kit_std::alloc::AllocError;
use crate::kit_host::rt::ExitCode;

pub fn main(rt: HostRuntime) -> ExitCode {
    match run(&rt) {
        Ok(status) => ExitCode::from(status),
        Err(AllocError) => {
            let _ = eprintln!(rt; "cqlp: no memory");
            ExitCode::from(FAULT)
        }
    }
}

/// Does what the words after the program's name say. Answers the exit status.
fn run(rt: &HostRuntime) -> Result<u8, AllocError> {
    let mut words = read_words(rt)?;
    match redirect(&mut words) {
        Ok(()) => {}
        Err(NotRead::NoMemory) => return Err(AllocError),
        Err(NotRead::CannotOpen(place)) => {
            report_unopened(rt, &words, place);
            return Ok(FAULT);
        }
    }
    let texts = texts(&words)?;
    let texts = texts.as_slice();
    let mut input = OfStd::new(rt.stdin());
    let out = Screen::new(OfStd::new(rt.stdout()), table_for(rt, texts));
    let err = OfStd::new(rt.stderr());
    let mut notes = if rt.stderr().is_terminal() {
        Some(OfStd::new(rt.stderr()))
    } else {
        None
    };
    let (status, _, _) = command_with_notes(rt, texts, &mut input, out, err, &mut notes);
    Ok(status)
}

/// Reports that the file cannot be opened that the word at a place names.
fn report_unopened(rt: &HostRuntime, words: &[Argument], place: usize) {
    if let Some(word) = words.get(place) {
        let _ = cannot_open_line(word.text.as_str(), &mut OfStd::new(rt.stderr()));
    }
}
