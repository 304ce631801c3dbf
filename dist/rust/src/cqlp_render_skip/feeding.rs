// Written by dist/erase from crates/cqlp_render_skip/src/feeding.rt.
//! A piece of a stream, written as text with frames passed over.

use crate::cqlp_render_skip::report::Report;
use crate::cqlp_decode::SinkFault;
use crate::cqlp_note::{Refusal, Target};
use crate::cqlp_skip::{Fed, SkippingDecoder};

/// How handing on a piece ends.
#[derive(Clone, Copy)]
pub(crate) enum Handed {
    /// All of it was used, and more is wanted.
    More,
    /// The stream is refused in a frame that cannot be passed over.
    Refused(Refusal),
    /// One of the outputs failed.
    Fault,
}

/// Hands all events of a piece to the report, and passes over each frame whose body is refused.
pub(crate) fn hand_piece<O: Target, E: Target>(
    decoder: &mut SkippingDecoder,
    piece: &[u8],
    report: Report<O, E>,
) -> (Handed, Report<O, E>) {
    let mut rest = piece;
    let mut reporter = report;
    loop {
        let (fed, next) = decoder.feed(rest, reporter);
        reporter = next;
        match fed {
            Fed::More => return (Handed::More, reporter),
            Fed::Fault { .. } => return (Handed::Fault, reporter),
            Fed::Refused { used, refusal } => {
                let skipped = match decoder.skip() {
                    Ok(skipped) => skipped,
                    Err(_) => return (Handed::Refused(refusal), reporter),
                };
                if let Err(SinkFault) = reporter.end_stretch(&skipped) {
                    return (Handed::Fault, reporter);
                }
                rest = &rest[used..];
            }
        }
    }
}
