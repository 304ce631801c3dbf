// Written by dist/erase from crates/cqlp_skip/src/lib.rt.
//! A stream that is read on after a frame whose body is refused.

mod fed;
mod frame;
mod shifting;
mod skipping;

pub use crate::cqlp_decode::Fed;
pub use fed::{NotSkippable, Skipped};
pub use frame::OpenFrame;
pub use skipping::SkippingDecoder;
