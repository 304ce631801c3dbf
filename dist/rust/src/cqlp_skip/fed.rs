// Written by dist/erase from crates/cqlp_skip/src/fed.rt.
//! What calls of a decoder that skips return.

use crate::cqlp_skip::frame::stream_offset;
use crate::cqlp_decode::Fed;
use crate::cqlp_note::{Header, Refusal};

/// A frame that was passed over.
#[derive(Clone, Copy, Debug, PartialEq, Eq)]
pub struct Skipped {
    /// The offset of its header in the whole stream.
    pub at: u64,
    /// Its header: its stream id, its direction and the length of its body.
    pub header: Header,
    /// Why it was refused, and at which offset in the whole stream.
    pub refusal: Refusal,
    /// How many of its bytes are still to come, and will be used without being looked at.
    pub rest: u64,
}

error! {
/// Why no frame is passed over.
#[derive(Clone, Copy, Debug, PartialEq, Eq)]
pub enum NotSkippable {
    /// Nothing was refused.
    #[error("nothing was refused")]
    NotRefused,
    /// A header was refused, so that nobody knows where the frame ends.
    #[error("the header is refused")]
    InHeader,
    /// The frame would end past the greatest offset.
    #[error("the frame ends past the greatest offset")]
    TooFar,
}
}

/// How many bytes of a piece of this length are passed over first, where this many bytes of the whole stream were used and the
/// stretch begins at `base`: those that the frame passed over last still has.
pub(crate) fn passed_of(base: u64, used: u64, len: usize) -> usize {
    let left = base.saturating_sub(used);
    left.min(len as u64) as usize
}

/// A refusal of a stretch that begins at `base`, at its offset in the whole stream.
pub(crate) fn refusal_from(base: u64, refusal: Refusal) -> Refusal {
    Refusal {
        at: stream_offset(base, refusal.at),
        why: refusal.why,
    }
}

/// How a piece ends whose first bytes were passed over, where the others end so.
pub(crate) fn fed_from(base: u64, passed: usize, fed: Fed) -> Fed {
    match fed {
        Fed::More => Fed::More,
        Fed::Refused { used, refusal } => Fed::Refused {
            used: passed + used,
            refusal: refusal_from(base, refusal),
        },
        Fed::Fault { used } => Fed::Fault {
            used: passed + used,
        },
    }
}

/// How many bytes of a piece of this length were used.
pub(crate) fn used_of(fed: Fed, len: usize) -> usize {
    match fed {
        Fed::More => len,
        Fed::Refused { used, .. } => used,
        Fed::Fault { used } => used,
    }
}
