//! Worked streams, and what is said of them; numbers to change them by.
#![forbid(unsafe_code)]
#![allow(dead_code)]

pub mod cores;

use crate::digits::bytes_of;
use cqlp::text::{Ending, ending_line, event_line};
use cqlp::{Decoder, Finish, Limits, OfStd, Step};

/// A stream of streams.txt, and what is said of it.
pub struct Stream {
    pub name: String,
    pub limits: Limits,
    pub bytes: Vec<u8>,
    pub said: String,
}

pub fn streams() -> Vec<Stream> {
    let mut streams: Vec<Stream> = Vec::new();
    for line in include_str!("../streams.txt").lines() {
        let (word, rest) = line.split_once(' ').unwrap_or((line, ""));
        match (word, streams.last_mut()) {
            ("stream", _) => streams.push(begun(rest)),
            ("bytes", Some(stream)) => stream.bytes = bytes_of(rest),
            ("end", Some(stream)) => stream.said += &format!("{rest}\n"),
            (_, Some(stream)) => stream.said += &format!("{line}\n"),
            (_, None) => unreachable!(),
        }
    }
    streams
}

/// A stream whose line says its name and its limits.
fn begun(words: &str) -> Stream {
    let (name, numbers) = words.split_once(' ').unwrap();
    let numbers: Vec<u32> = numbers.split(' ').map(|word| word.parse().unwrap()).collect();
    let &[text, cell, entries, depth, types, parts] = &numbers[..] else { panic!("six numbers") };
    let limits = Limits { text, cell, entries, depth, types: types == 1, parts: parts == 1 };
    Stream { name: name.to_string(), limits, bytes: Vec::new(), said: String::new() }
}

/// The lines of the events of these pieces, and of the verdict.
pub fn said<'a>(limits: Limits, pieces: impl IntoIterator<Item = &'a [u8]>) -> String {
    let mut decoder = Decoder::new(limits).unwrap();
    let mut lines = OfStd::new(Vec::new());
    for piece in pieces {
        if !add(&mut decoder, piece, &mut lines) {
            break;
        }
    }
    ending_line(Ending::Finished(decoder.finish()), &mut lines).unwrap();
    String::from_utf8(lines.into_inner()).unwrap()
}

/// Adds the lines of a piece's events, and answers whether more may come.
fn add(decoder: &mut Decoder, piece: &[u8], lines: &mut OfStd<Vec<u8>>) -> bool {
    let mut used = 0;
    loop {
        match decoder.next(&piece[used..]) {
            Step::Event { at, used: taken, event } => {
                event_line(at, &event, lines).unwrap();
                used += taken;
            }
            Step::More { used: taken } => {
                assert_eq!(used + taken, piece.len());
                return true;
            }
            Step::Refused(refusal) => {
                assert_eq!(decoder.finish(), Finish::Refused(refusal));
                return false;
            }
        }
    }
}

/// How many cases of a test are tried: CQLP_STREAMS, or 3,000.
pub fn count() -> u64 {
    std::env::var("CQLP_STREAMS").map_or(3_000, |text| text.parse().unwrap())
}

/// Numbers that look random, the same at each run.
pub struct Numbers(u64);

impl Numbers {
    pub fn new() -> Numbers {
        Numbers(0x9e37_79b9_7f4a_7c15)
    }

    pub fn below(&mut self, end: usize) -> usize {
        self.0 ^= self.0 << 13;
        self.0 ^= self.0 >> 7;
        self.0 ^= self.0 << 17;
        (self.0 >> 11) as usize % end
    }

    pub fn one_of<T: Copy>(&mut self, all: &[T]) -> T {
        all[self.below(all.len())]
    }
}

/// Some of these streams one after the other, of which some bytes are changed, and which may be cut.
pub fn mutated(numbers: &mut Numbers, bases: &[Vec<u8>]) -> Vec<u8> {
    let mut stream = Vec::new();
    for _ in 0..numbers.one_of(&[1, 1, 1, 2, 3]) {
        stream.extend(&bases[numbers.below(bases.len())]);
    }
    for _ in 0..numbers.one_of(&[0, 1, 1, 2, 3, 8]) {
        if !stream.is_empty() {
            let place = numbers.below(stream.len());
            let any = numbers.below(256) as u8;
            stream[place] = numbers.one_of(&[0, 1, 2, 4, 0x7f, 0x80, 0xff, 0xfe, any]);
        }
    }
    if numbers.below(5) == 0 {
        stream.truncate(numbers.below(stream.len() + 1));
    }
    stream
}

/// Limits of any size.
pub fn limits(numbers: &mut Numbers) -> Limits {
    Limits {
        text: numbers.one_of(&[32, 64, 1000, 1 << 20]),
        cell: numbers.one_of(&[32, 64, 1000, 1 << 20]),
        entries: numbers.one_of(&[1, 8, 4096]),
        depth: numbers.one_of(&[1, 3, 16, 64]),
        types: numbers.below(5) > 0,
        parts: numbers.below(5) == 0,
    }
}
