// Written by dist/erase from crates/cqlp_capture_streams/src/last_words.rt.
//! What a caller says in the last line of a capture.

use crate::cqlp_grammar::SinkFault;
use crate::cqlp_text::{Pen, TextWriter};

/// What a caller says in the last line of a capture, beside what the capture was. It takes no memory for that.
pub trait LastWords {
    /// Whether there is a note.
    fn has_note(&self) -> bool;

    /// Takes the note.
    fn put_note<P: Pen>(&self, writer: &mut TextWriter<P>) -> Result<(), SinkFault>;

    /// Takes the words.
    fn put_words<P: Pen>(&self, writer: &mut TextWriter<P>) -> Result<(), SinkFault>;
}

/// A word, without a note.
#[derive(Clone, Copy)]
pub struct LastWord(pub &'static str);

impl LastWords for LastWord {
    fn has_note(&self) -> bool {
        false
    }

    fn put_note<P: Pen>(&self, writer: &mut TextWriter<P>) -> Result<(), SinkFault> {
        writer.put(b"")
    }

    fn put_words<P: Pen>(&self, writer: &mut TextWriter<P>) -> Result<(), SinkFault> {
        writer.put_str(self.0)
    }
}
