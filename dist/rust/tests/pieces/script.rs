//! What the words of a line ask for.

use cqlp::Limits;

/// What is said of a stream.
#[derive(Clone, Copy, PartialEq, Eq)]
pub enum Shows {
    Events,
    /// Its events, and after each how the stream would end there and what is held.
    Calls,
    /// How many events it has, and where its frames end.
    Counts,
    /// How a decoder is made in memory of each size.
    Memory,
    /// What a decoder says that passes over each frame that it can.
    Skips,
}

/// How a stream is read.
pub struct Script<'a> {
    pub limits: Limits,
    pub lenient: bool,
    pub shows: Shows,
    /// The stream whose types are given to the decoder before its first byte, in hexadecimal digits.
    pub given: Option<&'a str>,
}

impl<'a> Script<'a> {
    pub fn read(words: &'a str) -> Script<'a> {
        let limits = Limits { text: 64, cell: 64, entries: 8, depth: 3, types: true, parts: false };
        let mut script = Script { limits, lenient: false, shows: Shows::Events, given: None };
        let mut words = words.split_whitespace();
        assert!(words.next().is_some_and(|name| !name.starts_with("--")), "a line begins with its name");
        words.for_each(|word| script.ask(word));
        script
    }

    fn ask(&mut self, word: &'a str) {
        let (name, digits) = word.split_once('=').unwrap_or((word, ""));
        match name {
            "--text" => self.limits.text = digits.parse().unwrap(),
            "--cell" => self.limits.cell = digits.parse().unwrap(),
            "--entries" => self.limits.entries = digits.parse().unwrap(),
            "--depth" => self.limits.depth = digits.parse().unwrap(),
            "--given" => self.given = Some(digits),
            "--raw" => self.limits.types = false,
            "--parts" => self.limits.parts = true,
            "--lenient" => self.lenient = true,
            "--calls" => self.shows = Shows::Calls,
            "--counts" => self.shows = Shows::Counts,
            "--memory" => self.shows = Shows::Memory,
            "--skip" => self.shows = Shows::Skips,
            _ => panic!("{word} asks for nothing"),
        }
    }
}
