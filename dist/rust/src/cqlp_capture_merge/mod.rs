// Written by dist/erase from crates/cqlp_capture_merge/src/lib.rt.
//! Summaries of several captures, added.

mod files;
mod lines;
mod merging;
mod object;
mod refusal;
mod run;

pub use files::FileNames;
pub use run::{MergedAs, merge_summaries};
