// Written by dist/erase from crates/cqlp_capture_prepared/src/requests.rt.
//! The requests of a connection, of which the EXECUTEs name statements.

use crate::cqlp_capture_prepared::execute::Execute;
use crate::cqlp_capture_prepared::prepared_types::PreparedTypes;
use crate::cqlp_note::{Header, Opcode};
use crate::cqlp_observer::{Heads, Heard, HeardStep, Unread};
use crate::cqlp_tcp_reassembly::StreamStep;

/// The requests of a connection: where their frames begin and end, and the EXECUTE whose id has not come whole, if one is under way. Takes no
/// memory.
pub struct Requests {
    heads: Heads,
    execute: Option<Execute>,
}

impl Requests {
    /// Nothing came. Its first byte begins a frame, where `from_start`.
    pub fn new(from_start: bool) -> Self {
        Requests {
            heads: Heads::new(false, from_start),
            execute: None,
        }
    }

    /// Takes what the direction of the requests delivers, with its bytes, and reports the EXECUTEs among them, and the other requests, to `known`: each at its
    /// header, and an EXECUTE again where its id came whole. With a SYN nothing is known any more.
    pub fn hear(
        &mut self,
        step: StreamStep,
        bytes: &[u8],
        known: &mut PreparedTypes,
    )
    {
        match step {
            StreamStep::Began { syn } => self.begin(syn, known),
            StreamStep::Payload { from, .. } => self.hear_bytes(from == 0, bytes, known),
            StreamStep::Held { begins, .. } => self.hear_bytes(begins, bytes, known),
            StreamStep::Gap { length, .. } => {
                let _ = self.heads.gap(length, None);
                self.execute = None;
            }
            StreamStep::Ended | StreamStep::Reset => {
                let _ = self.heads.end();
                self.execute = None;
            }
            StreamStep::Kept | StreamStep::Done => {}
        }
    }

    fn begin(&mut self, syn: bool, known: &mut PreparedTypes) {
        *self = Requests::new(syn);
        if syn {
            known.clear();
        }
    }

    /// Takes bytes, the first of which begins a segment or not.
    fn hear_bytes(&mut self, begins: bool, bytes: &[u8], known: &mut PreparedTypes) {
        let mut unread = Unread::new(bytes, begins);
        while unread.steps > 0 {
            let HeardStep { used, heard } = self.heads.take(unread.bytes, None, unread.begins);
            self.take_heard(heard, &unread.bytes[..used], known);
            if is_done(heard) {
                return;
            }
            unread = unread.after(used);
        }
    }

    /// Takes what bytes are.
    fn take_heard(&mut self, heard: Heard, bytes: &[u8], known: &mut PreparedTypes) {
        match heard {
            Heard::Begins(header) => {
                known.forget(header.stream);
                self.execute = execute_of(&header);
            }
            Heard::Body => self.take_body(bytes, known),
            Heard::Ends(_) | Heard::Stray => self.execute = None,
            Heard::More => {}
        }
    }

    /// Takes bytes of a body.
    fn take_body(&mut self, bytes: &[u8], known: &mut PreparedTypes) {
        let Some(mut execute) = self.execute.take() else {
            return;
        };
        execute.read(bytes);
        match execute.id() {
            Some(id) => known.executed(execute.stream, id),
            None => self.execute = Some(execute),
        }
    }
}

/// The EXECUTE that begins with a header, if one does whose body is not compressed.
fn execute_of(header: &Header) -> Option<Execute> {
    if names_statement(header) {
        Some(Execute::new(header))
    } else {
        None
    }
}

/// Whether it is an EXECUTE that is not compressed.
fn names_statement(header: &Header) -> bool {
    header.opcode == Opcode::Execute && header.flags & 0x01 == 0
}

/// Whether nothing more is reported of a piece.
fn is_done(heard: Heard) -> bool {
    match heard {
        Heard::More => true,
        Heard::Begins(_) | Heard::Body | Heard::Ends(_) | Heard::Stray => false,
    }
}
