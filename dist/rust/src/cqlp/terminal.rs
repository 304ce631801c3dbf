// Written by dist/erase from crates/cqlp/src/terminal.rt.
//! What is known of the terminal.

use crate::kit_host::prelude::{HostRuntime};
use crate::cqlp::screen::Table;
use crate::kit_host::env::{Env, FillError};

/// The table that these words ask for, where standard output is a terminal: NO_COLOR takes its colour away, and COLUMNS says how wide the terminal is.
pub fn table_for(rt: &HostRuntime, words: &[&str]) -> Option<Table> {
    if !is_table(words) || !rt.stdout().is_terminal() {
        return None;
    }
    Some(Table::new(columns(rt), !says_something(rt, "NO_COLOR")))
}

/// Whether words ask for a table.
fn is_table(words: &[&str]) -> bool {
    let has = |name: &str| words.iter().any(|word| *word == name);
    (has("merge") || has("--summary")) && !has("--json") && !has("--help") && !has("-h")
}

/// Whether a variable of the environment has a text.
fn says_something<R: Env>(rt: &R, name: &str) -> bool {
    match rt.var(name, &mut [0; 1]) {
        Ok(len) => len > 0,
        Err(FillError::TooLong) => true,
        Err(FillError::NotPresent) => false,
    }
}

/// The number in COLUMNS.
fn columns<R: Env>(rt: &R) -> Option<usize> {
    let mut room = [0; 8];
    let len = rt.var("COLUMNS", &mut room).ok()?;
    number(&room[..len])
}

/// A number from 1 on, of digits alone.
fn number(digits: &[u8]) -> Option<usize> {
    let mut number = 0usize;
    for digit in digits {
        if !digit.is_ascii_digit() {
            return None;
        }
        number = number
            .saturating_mul(10)
            .saturating_add(usize::from(*digit - b'0'));
    }
    if number > 0 { Some(number) } else { None }
}
