//! The streams of bindings/streams.txt.

use super::{bindings, bytes_of};
use cqlp::Limits;

/// A stream of bindings/streams.txt, and what is said of it.
pub struct Stream {
    pub name: String,
    pub limits: Limits,
    pub bytes: Vec<u8>,
    pub lines: Vec<String>,
    pub verdict: String,
}

fn limits_of(words: &[&str]) -> Limits {
    let numbers: Vec<u32> = words.iter().map(|word| word.parse().unwrap()).collect();
    Limits {
        text: numbers[0],
        cell: numbers[1],
        entries: numbers[2],
        depth: numbers[3],
        types: numbers[4] == 1,
        parts: numbers[5] == 1,
    }
}

pub fn streams() -> Vec<Stream> {
    let text = std::fs::read_to_string(bindings().join("streams.txt")).unwrap();
    let mut streams: Vec<Stream> = Vec::new();
    for line in text.split_terminator('\n') {
        let words: Vec<&str> = line.split(' ').collect();
        match words[0] {
            "stream" => streams.push(Stream {
                name: words[1].to_string(),
                limits: limits_of(&words[2..]),
                bytes: Vec::new(),
                lines: Vec::new(),
                verdict: String::new(),
            }),
            "bytes" => streams.last_mut().unwrap().bytes = bytes_of(words[1]),
            "end" => streams.last_mut().unwrap().verdict = words[1..].join(" "),
            _ => streams.last_mut().unwrap().lines.push(line.to_string()),
        }
    }
    assert!(streams.len() >= 138);
    streams
}
