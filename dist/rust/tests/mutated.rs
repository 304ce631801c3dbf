//! Streams whose bytes were changed at random end in no panic, and say the same whole and in pieces: by `next`, and by `run`, whose loops
//! go over what lies whole. The headers in them are handed to the cores of a client and of a server. CQLP_STREAMS is how many streams there
//! are, 3,000 where it is not set.
#![forbid(unsafe_code)]

use crate::common::cores::{Caller, Responder};
use crate::common::{Numbers, count, limits, mutated, said, streams};
use cqlp::text::{Ending, ending_line, render_events, render_rows};
use cqlp::{Decoder, Event, Header, Limits, OfStd, Outcome, Sink, SinkFault, run};

/// Pieces of a stream, each of at most this many bytes.
fn pieces<'a>(numbers: &mut Numbers, mut rest: &'a [u8], most: usize) -> Vec<&'a [u8]> {
    let mut pieces = Vec::new();
    while !rest.is_empty() {
        let (piece, after) = rest.split_at(rest.len().min(1 + numbers.below(most)));
        pieces.push(piece);
        rest = after;
    }
    pieces
}

/// The headers of a stream's frames, for which nothing is written.
#[derive(Default)]
struct Headers(Vec<Header>);

impl Sink for Headers {
    fn take(&mut self, _at: u64, event: &Event<'_>) -> Result<(), SinkFault> {
        if let Event::Frame(header) = event {
            self.0.push(*header);
        }
        Ok(())
    }
}

/// What `run` has written of a stream, and its verdict; and the headers in it.
fn rendered(limits: Limits, stream: &[u8]) -> (String, Vec<Header>) {
    let decoder = || Decoder::new(limits).unwrap();
    let (outcome, mut lines) = render_events(&mut decoder(), &mut OfStd::new(stream), OfStd::new(Vec::new()), u64::MAX);
    let Outcome::Finished(finish) = outcome else { panic!("{outcome:?}") };
    ending_line(Ending::Finished(finish), &mut lines).unwrap();
    assert_eq!(render_rows(&mut decoder(), &mut OfStd::new(stream), OfStd::new(Vec::new()), u64::MAX).0, outcome);
    let mut headers = Headers::default();
    assert_eq!(run(&mut decoder(), &mut OfStd::new(stream), &mut headers, u64::MAX), outcome);
    (String::from_utf8(lines.into_inner()).unwrap(), headers.0)
}

#[test]
fn mutated_streams() {
    let bases: Vec<Vec<u8>> = streams().into_iter().map(|stream| stream.bytes).filter(|bytes| bytes.len() < 2_000).collect();
    let mut numbers = Numbers::new();
    let slots = 3;
    let (mut caller, mut responder) = (Caller::new(slots), Responder::new(slots));
    for case in 0..count() {
        let (stream, limits) = (mutated(&mut numbers, &bases), limits(&mut numbers));
        let whole = said(limits, [&stream[..]]);
        let most = numbers.one_of(&[1, 3, 20, 200]);
        assert_eq!(said(limits, pieces(&mut numbers, &stream, most)), whole, "case {case}: {stream:02x?}");
        let (lines, headers) = rendered(limits, &stream);
        assert_eq!(lines, whole, "case {case}: {stream:02x?}");
        for header in headers {
            caller.follow(&mut numbers, &header);
            responder.follow(&mut numbers, &header);
        }
        if numbers.below(50) == 0 {
            (caller, responder) = (Caller::new(slots), Responder::new(slots));
        }
    }
}
