//! The words of the command line, and the environment.
use super::rt::HostRuntime;
use crate::libc;
use std::ffi::OsString;
use std::os::unix::ffi::OsStrExt;

/// Why a word was not copied.
pub enum FillError {
    NotPresent,
    TooLong,
}

pub trait Env {
    /// Copies the word at a place of the command line, and answers its length.
    fn arg(&self, place: usize, room: &mut [u8]) -> Result<usize, FillError>;

    /// Copies the text of a variable, and answers its length. Without COLUMNS the terminal is asked.
    fn var(&self, name: &str, room: &mut [u8]) -> Result<usize, FillError>;
}

impl Env for HostRuntime {
    fn arg(&self, place: usize, room: &mut [u8]) -> Result<usize, FillError> {
        fill(room, std::env::args_os().nth(place))
    }

    fn var(&self, name: &str, room: &mut [u8]) -> Result<usize, FillError> {
        let asked = || if name == "COLUMNS" { libc::terminal_columns().map(|columns| columns.to_string().into()) } else { None };
        fill(room, std::env::var_os(name).or_else(asked))
    }
}

fn fill(room: &mut [u8], word: Option<OsString>) -> Result<usize, FillError> {
    let word = word.ok_or(FillError::NotPresent)?;
    let bytes = word.as_bytes();
    room.get_mut(..bytes.len()).ok_or(FillError::TooLong)?.copy_from_slice(bytes);
    Ok(bytes.len())
}
