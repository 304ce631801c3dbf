// Written by dist/erase from crates/cqlp_build/src/lib.rt.
//! Frames of the CQL native protocol v4, built of their events.

mod builder;
mod content;
mod error;
mod frame_len;
mod frames;
mod held;
mod held_events;
mod item;
mod lists;
mod messages;
mod metadata;
mod misfit;
mod nesting;
mod pages;
mod plain_cells;
mod requests;
mod responses;
mod types;

pub use builder::{BuildLimits, BuiltFrame, FrameBuilder};
pub use error::BuildError;
