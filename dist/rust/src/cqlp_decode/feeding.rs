// Written by dist/erase from crates/cqlp_decode/src/feeding.rt.
//! A piece of a stream, handed to a sink as events.

use crate::cqlp_decode::decoder::Decoder;
use crate::cqlp_decode::step::Step;
use crate::cqlp_grammar::{Sink, SinkFault};
use crate::cqlp_note::Refusal;

/// How feeding a piece ends.
#[derive(Clone, Copy, Debug, PartialEq, Eq)]
pub enum Fed {
    /// All of the piece was used, the sink has got all of its events, and more is wanted.
    More,
    /// The stream is refused after this many bytes of the piece, here and at every later call. The refusal's offset is one in the
    /// whole stream.
    Refused {
        /// How many bytes of the piece were used, 0 at each call after the one that found the fault.
        used: usize,
        /// What is refused, and where in the stream.
        refusal: Refusal,
    },
    /// The sink failed at an event that ends after this many bytes of the piece. A later call goes on behind them.
    Fault {
        /// How many bytes of the piece were used, up to the end of the event at which the sink failed.
        used: usize,
    },
}

impl Decoder {
    /// Hands all events that the input decides to the sink: the ends of frames and of values too, so that nothing waits for
    /// another call. What `run` does with each piece that it reads, and as fast.
    ///
    /// Contents that lie whole in the input are lent from it. No memory is asked for. After `Fed::More` the next call takes the
    /// bytes that come next; at the end of the stream `finish` says whether it ends between two frames.
    pub fn feed<S: Sink>(&mut self, input: &[u8], sink: &mut S) -> Fed {
        let mut used = 0;
        loop {
            match self.hand_whole(&input[used..], sink) {
                Ok(taken) => used += taken,
                Err(fault) => {
                    let used = used + fault.used;
                    return Fed::Fault { used };
                }
            }
            match self.next(&input[used..]) {
                Step::More { .. } => return Fed::More,
                Step::Refused(refusal) => return Fed::Refused { used, refusal },
                Step::Event {
                    at,
                    used: taken,
                    event,
                } => match sink.take(at, &event) {
                    Ok(()) => used += taken,
                    Err(SinkFault) => {
                        let used = used + taken;
                        return Fed::Fault { used };
                    }
                },
            }
        }
    }
}
