// Written by dist/erase from crates/cqlp_render_skip/src/lib.rt.
//! A stream as text that is read on after frames whose bodies are refused.

mod feeding;
mod forming;
mod reading;
mod report;
mod showing;
mod skipped_line;

pub(crate) use showing::{check_skipping, show_skipping};
