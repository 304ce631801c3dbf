//! Each worked stream says its events and its verdict: whole, byte by byte, and in two pieces cut at each place.
#![forbid(unsafe_code)]

use crate::common::{said, streams};

#[test]
fn whole() {
    let streams = streams();
    assert!(streams.len() >= 138, "{}", streams.len());
    for stream in streams {
        assert_eq!(said(stream.limits, [&stream.bytes[..]]), stream.said, "{}", stream.name);
    }
}

#[test]
fn byte_by_byte() {
    for stream in streams() {
        assert_eq!(said(stream.limits, stream.bytes.chunks(1)), stream.said, "{}", stream.name);
    }
}

#[test]
fn in_two_pieces() {
    for stream in streams().iter().filter(|stream| stream.bytes.len() < 10_000) {
        for place in 1..stream.bytes.len() {
            let (one, other) = stream.bytes.split_at(place);
            assert_eq!(said(stream.limits, [one, other]), stream.said, "{} cut at {place}", stream.name);
        }
    }
}
