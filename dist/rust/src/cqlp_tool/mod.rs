// Written by dist/erase from crates/cqlp_tool/src/lib.rt.
//! What the program cqlp does; and the progress that it reports while it reads a long file.

mod capture_files;
mod capture_folder;
mod command_line;
mod connection;
mod conversing;
mod folder;
mod followed_capture;
mod limits;
mod line;
mod marks;
mod path_lines;
mod pause;
mod progress;
mod statements;

pub use command_line::{command, command_with_notes};
pub(crate) use command_line::{execute};
pub use conversing::converse;
pub use crate::cqlp_options::{
    CaptureOptions, CommandLine, DEFAULT_LIMITS, EventsAs, NoTask, Options, QUERIES, RowsAs, Task,
};
pub use crate::cqlp_render::{TextForm, render_events, render_rows};
pub(crate) use crate::cqlp_render::{check, rows, show, show_as};
pub use crate::cqlp_text::{Ending, cell_text};
