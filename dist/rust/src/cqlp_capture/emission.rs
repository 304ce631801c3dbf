// Written by dist/erase from crates/cqlp_capture/src/emission.rt.
//! Short forms of what bytes say.

use crate::cqlp_capture::block::Block;
use crate::cqlp_capture::event::{Emission, EventOutline, SkipReason};
use crate::cqlp_capture::interfaces::TableChange;
use crate::cqlp_capture::place::{Place, Stage};
use crate::cqlp_capture::refusal::{CaptureReason, CaptureRefusal};

/// No event, and this is read next, from this offset on.
#[inline]
pub(crate) fn read_next(offset: u64, stage: Stage) -> Result<Emission, CaptureRefusal> {
    Ok(Emission {
        at: offset,
        what: None,
        place: Place { offset, stage },
        change: TableChange::Keep,
    })
}

/// That something in this block cannot be read, of which what is left from this offset on is passed over.
pub(crate) fn skip(offset: u64, block: Block, why: SkipReason) -> Result<Emission, CaptureRefusal> {
    Ok(Emission {
        at: block.start,
        what: Some(EventOutline::Skipped(why)),
        place: Place {
            offset,
            stage: block.passing(offset, block.end()),
        },
        change: TableChange::Keep,
    })
}

/// The refusal at this offset.
#[inline]
pub(crate) fn refuse(at: u64, why: CaptureReason) -> Result<Emission, CaptureRefusal> {
    Err(CaptureRefusal { at, why })
}
