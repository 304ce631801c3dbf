// Written by dist/erase from crates/cqlp_capture_events/src/limits.rt.
//! How much is held.

use crate::cqlp_note::Limits;

/// How many frames are read at one time.
pub const OPEN_FRAMES: usize = 128;

/// The limits on each frame. A decoder takes 80 KiB within them, so those of 128 frames take 10 MiB.
pub const LIMITS: Limits = Limits {
    text: 65_536,
    cell: 65_536,
    entries: 1_024,
    depth: 16,
    types: true,
    parts: true,
};
