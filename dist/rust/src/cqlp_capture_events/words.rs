// Written by dist/erase from crates/cqlp_capture_events/src/words.rt.
//! What is said of frames in the last line.

use crate::cqlp_capture_streams::{LastWords, put_count};
use crate::cqlp_grammar::SinkFault;
use crate::cqlp_text::{Pen, TextWriter};

/// How many frames were not read.
#[derive(Clone, Copy)]
pub(crate) struct EventsWords {
    pub(crate) unread: u64,
}

/// Why not all frames were read, in a line, if so many were not.
fn note_of(unread: u64) -> &'static str {
    if unread == 0 {
        ""
    } else {
        "cqlp: not all frames were read: more than 128 came at one time\n"
    }
}

impl LastWords for EventsWords {
    fn has_note(&self) -> bool {
        self.unread != 0
    }

    fn put_note<P: Pen>(&self, writer: &mut TextWriter<P>) -> Result<(), SinkFault> {
        writer.put_str(note_of(self.unread))
    }

    fn put_words<P: Pen>(&self, writer: &mut TextWriter<P>) -> Result<(), SinkFault> {
        writer.put(b"events")?;
        put_count(writer, "Unread", self.unread)
    }
}
