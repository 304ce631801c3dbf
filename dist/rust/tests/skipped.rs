//! A stream that is read on after a frame whose body is refused.
#![forbid(unsafe_code)]

use cqlp::{Event, Fed, Finish, Limits, NotSkippable, Reason, Refusal, Sink, SinkFault, Skipped, SkippingDecoder};

/// The places of the headers, and how many other events there were.
#[derive(Default)]
struct Told {
    headers: Vec<(u64, i16)>,
    others: u32,
}

impl Sink for Told {
    fn take(&mut self, at: u64, event: &Event<'_>) -> Result<(), SinkFault> {
        match event {
            Event::Frame(header) => self.headers.push((at, header.stream)),
            _ => self.others += 1,
        }
        Ok(())
    }
}

/// OPTIONS, a QUERY whose text is no UTF-8, and OPTIONS.
const STREAM: &[u8] = b"\x04\0\0\x01\x05\0\0\0\0\x04\0\0\x02\x07\0\0\0\x08\0\0\0\x01\xff\0\x01\0\x04\0\0\x03\x05\0\0\0\0";
const REFUSAL: Refusal = Refusal { at: 18, why: Reason::BadUtf8 };

/// Reads the stream in pieces of this many bytes, and passes over what is refused.
fn read(most: usize) -> (Told, Vec<Skipped>, Finish) {
    let (mut decoder, mut told, mut skipped) = (SkippingDecoder::new(Limits::DEFAULT).unwrap(), Told::default(), Vec::new());
    for piece in STREAM.chunks(most) {
        let mut rest = piece;
        loop {
            let (fed, sink) = decoder.feed(rest, told);
            told = sink;
            let Fed::Refused { used, refusal } = fed else {
                assert_eq!(fed, Fed::More);
                break;
            };
            assert_eq!(refusal, REFUSAL);
            skipped.push(decoder.skip().unwrap());
            rest = &rest[used..];
        }
    }
    assert_eq!(decoder.used(), STREAM.len() as u64);
    (told, skipped, decoder.finish())
}

#[test]
fn in_pieces_of_each_length() {
    for most in 1..=STREAM.len() {
        let (told, skipped, finish) = read(most);
        assert_eq!((told.headers, told.others, finish), (vec![(0, 1), (9, 2), (26, 3)], 2, Finish::Whole { bytes: 35 }));
        let [Skipped { at: 9, header, refusal: REFUSAL, .. }] = skipped[..] else { panic!("{skipped:?}") };
        assert_eq!(header.stream, 2);
    }
}

#[test]
fn nothing_to_pass_over() {
    let mut decoder = SkippingDecoder::new(Limits::DEFAULT).unwrap();
    assert_eq!(decoder.skip(), Err(NotSkippable::NotRefused));
    let (fed, _) = decoder.feed(b"\x05\0\0\0\x05\0\0\0\0", Told::default());
    assert!(matches!(fed, Fed::Refused { .. }));
    assert_eq!(decoder.skip(), Err(NotSkippable::InHeader));
}
