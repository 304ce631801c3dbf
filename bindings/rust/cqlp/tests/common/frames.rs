//! The whole frames of the streams.

use super::streams::streams;
use cqlp::{Bound, Code, Decoder, Event, Limits, Scalar, Stop, What};

/// A whole frame of a stream, with its events. Its bytes stay until the tests end.
pub struct WholeFrame {
    pub name: String,
    pub limits: Limits,
    pub bytes: &'static [u8],
    pub events: Vec<Event<'static>>,
}

/// The whole frames of all streams.
pub fn frames() -> Vec<WholeFrame> {
    let streams = streams().into_iter();
    streams
        .flat_map(|stream| frames_of(&stream.name, stream.limits, stream.bytes))
        .collect()
}

/// The whole frames of one stream.
pub fn frames_of(name: &str, limits: Limits, bytes: Vec<u8>) -> Vec<WholeFrame> {
    let bytes: &'static [u8] = bytes.leak();
    let decoder = Box::leak(Box::new(Decoder::new(limits).unwrap()));
    let batch = decoder.batch(bytes);
    assert_ne!(batch.stop(), Stop::Full, "{name}");
    let events: Vec<Event> = batch.collect();
    let parts = events.split_inclusive(|event| matches!(event.what, What::End(_)));
    let whole = parts.filter(|part| matches!(part.last().unwrap().what, What::End(_)));
    let whole_frame = |part: &[Event<'static>]| WholeFrame {
        name: name.to_string(),
        limits,
        bytes: &bytes[part[0].at as usize..part.last().unwrap().at as usize],
        events: part.to_vec(),
    };
    whole.map(whole_frame).collect()
}

/// Why a frame is not written, if it is not: a scalar of a cell comes in parts, or cells were read without their types.
pub fn refusal(frame: &WholeFrame) -> Option<Code> {
    let has = |test: fn(&What) -> bool| frame.events.iter().any(|event| test(&event.what));
    if has(|what| matches!(what, What::Part { .. })) {
        Some(Code::Unbuilt)
    } else if has(|what| matches!(what, What::TypeNode(_))) && !frame.limits.types {
        Some(Code::NoSuchFrame)
    } else {
        None
    }
}

/// The bytes of a frame without those after its last field, with a null of the length -1, and with 1 for true. There is no other way to spell it.
pub fn spelled(frame: &WholeFrame) -> Vec<u8> {
    let mut bytes = frame.bytes.to_vec();
    for event in &frame.events {
        let at = (event.at - frame.events[0].at) as usize;
        match event.what {
            What::Null(_) | What::Bytes(_, None) | What::Bound(_, Bound::Null) => bytes[at..at + 4].fill(0xFF),
            What::Leaf(_, Scalar::Boolean(truth)) => bytes[at + 4] = truth.into(),
            What::End(extra) => bytes.truncate(bytes.len() - extra as usize),
            _ => (),
        }
    }
    let length = bytes.len() as u32 - 9;
    bytes[5..9].copy_from_slice(&length.to_be_bytes());
    bytes
}
