//! A command line, and what it writes and answers.
use super::fakes::{Narrow, Pieces};
use crate::cqlp_capture_streams::CaptureInput;
use crate::cqlp_tool::command;
use crate::kit_host::prelude::HostRuntime;

/// All bytes in one read.
pub const WHOLE: [usize; 3] = [usize::MAX; 3];

/// A command line, and the bytes of its standard input.
pub struct Invocation<'a> {
    pub words: Vec<&'a str>,
    pub bytes: &'a [u8],
}

/// What a command line writes and answers.
#[derive(PartialEq)]
pub struct Done {
    pub status: u8,
    pub out: Vec<u8>,
    pub err: Vec<u8>,
    /// How many writes of the output failed.
    pub failures: usize,
}

impl<'a> Invocation<'a> {
    /// `""` is a word without a letter.
    pub fn new(line: &'a str, bytes: &'a [u8]) -> Self {
        Invocation { words: line.split_whitespace().map(|word| if word == "\"\"" { "" } else { word }).collect(), bytes }
    }

    /// With standard input in one piece, and room for all that is written.
    pub fn whole(&self) -> Done {
        self.in_pieces(WHOLE)
    }

    /// With standard input in pieces of these sizes.
    pub fn in_pieces(&self, sizes: [usize; 3]) -> Done {
        self.done(&mut Pieces::new(self.bytes, sizes), usize::MAX, usize::MAX)
    }

    /// Whether frames are to be passed over.
    pub fn skips(&self) -> bool {
        self.words.contains(&"--skip")
    }

    /// With this standard input, and room for this many bytes in each output.
    pub fn done(&self, input: &mut impl CaptureInput, out: usize, err: usize) -> Done {
        Done::of(command(&HostRuntime, &self.words, input, Narrow::new(out, 7), Narrow::new(err, 7)))
    }
}

impl Done {
    pub fn of((status, out, err): (u8, Narrow, Narrow)) -> Done {
        Done { status, failures: out.failures, out: out.text, err: err.text }
    }

    /// Whether a stream was refused before its end.
    pub fn is_refused(&self) -> bool {
        self.out.starts_with(b"refused ") || self.err.split(|byte| *byte == b'\n').any(|line| line.starts_with(b"refused "))
    }

    /// Its output, its status, and its errors.
    pub fn said(&self) -> String {
        let text = |bytes: &[u8]| String::from_utf8(bytes.to_vec()).unwrap();
        format!("{}-- {}\n{}", text(&self.out), self.status, text(&self.err))
    }
}
