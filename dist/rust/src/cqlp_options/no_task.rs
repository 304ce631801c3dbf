// Written by dist/erase from crates/cqlp_options/src/no_task.rt.
//! What is in place of options.

use crate::kit_host::prelude::{String, ToText};
use crate::clap::error::ErrorKind;

error! {
/// Why a command line starts no task.
#[derive(Debug)]
pub enum NoTask {
    /// Help or the version was asked for, with this text.
    #[error("{0}")]
    Help(String),
    /// It is no command line of the program: what is wrong with it.
    #[error("{0}")]
    Mistake(String),
    /// There was no memory to read it, or for a text.
    #[error("no memory")]
    NoMemory,
}
}

/// What an error of the command line's parser says.
pub(crate) fn no_task_of(error: &crate::clap::Error) -> NoTask {
    let text = match error.kind() {
        ErrorKind::OutOfMemory => None,
        _ => error.to_text().ok(),
    };
    match text {
        None => NoTask::NoMemory,
        Some(text) if error.use_stderr() => NoTask::Mistake(text),
        Some(text) => NoTask::Help(text),
    }
}
