// Written by dist/erase from crates/cqlp_text/src/line_pen.rt.
//! A pen for one line.

use crate::cqlp_text::digits::{DECIMAL_ROOM, fill_with_digits, place_number};
use crate::cqlp_text::gap::Gap;
use crate::cqlp_text::pen::Pen;
use crate::cqlp_text::sending::send;
use crate::cqlp_grammar::SinkFault;
use crate::cqlp_note::Target;

/// How many bytes wait at most before they are passed on.
const ROOM: usize = 128;

/// Gathers short texts, so that a target gets them in few calls. Nothing waits after a `flush`.
pub struct LinePen<'a, W: Target> {
    target: &'a mut W,
    buffer: [u8; ROOM],
    len: usize,
}

impl<'a, W: Target> LinePen<'a, W> {
    /// With nothing that waits.
    pub fn new(target: &'a mut W) -> Self {
        LinePen {
            target,
            buffer: [0; ROOM],
            len: 0,
        }
    }

    /// The target, which did not get what waits.
    pub fn into_inner(self) -> &'a mut W {
        let LinePen {
            target,
            buffer: _,
            len: _,
        } = self;
        target
    }

    /// Takes a text after what waits was passed on.
    #[cold]
    #[inline(never)]
    fn put_afresh(&mut self, bytes: &[u8]) -> Result<(), SinkFault> {
        self.flush()?;
        if bytes.len() <= ROOM {
            self.keep(bytes);
            Ok(())
        } else {
            self.pass_on(bytes)
        }
    }

    /// Passes on all that waits; after a fault nothing waits either.
    #[inline(always)]
    pub fn flush(&mut self) -> Result<(), SinkFault> {
        let len = self.len;
        self.len = 0;
        send(self.target, &self.buffer[..len])
    }

    /// Passes a text on, where nothing waits.
    fn pass_on(&mut self, bytes: &[u8]) -> Result<(), SinkFault> {
        send(self.target, bytes)
    }

    /// Passes what waits on where there is no room for this many bytes more.
    #[inline(always)]
    fn make_room(&mut self, count: usize) -> Result<(), SinkFault> {
        if count <= ROOM - self.len {
            Ok(())
        } else {
            self.flush_apart()
        }
    }

    /// Passes on all that waits, in code of its own.
    #[inline(never)]
    fn flush_apart(&mut self) -> Result<(), SinkFault> {
        self.flush()
    }

    /// Takes a number that there is room for, as decimal digits.
    #[inline(always)]
    fn keep_number(&mut self, number: u64) {
        let len = place_number(number, &mut self.buffer, self.len);
        self.len += len;
    }

    /// Takes this many digits of a number, which there is room for.
    #[inline(always)]
    fn keep_digits(&mut self, count: usize, number: u64) {
        let end = self.len + count;
        fill_with_digits(number, &mut self.buffer[self.len..end]);
        self.len = end;
    }

    /// Takes a text that there is room for.
    #[inline(always)]
    fn keep(&mut self, bytes: &[u8]) {
        let end = self.len + bytes.len();
        self.buffer[self.len..end].copy_from_slice(bytes);
        self.len = end;
    }
}

impl<W: Target> Pen for LinePen<'_, W> {
    #[inline(always)]
    fn put(&mut self, bytes: &[u8]) -> Result<(), SinkFault> {
        if bytes.len() <= ROOM - self.len {
            self.keep(bytes);
            Ok(())
        } else {
            self.put_afresh(bytes)
        }
    }

    #[inline(always)]
    fn put_number(&mut self, number: u64) -> Result<(), SinkFault> {
        self.make_room(DECIMAL_ROOM)?;
        self.keep_number(number);
        Ok(())
    }

    #[inline(always)]
    fn takes_item(&mut self, _gap: Gap, _number: u64, _ends_line: bool) -> bool {
        false
    }

    #[inline(always)]
    fn takes_text(&mut self, _gap: Gap, _text: &str, _ends_line: bool) -> bool {
        false
    }

    #[inline(always)]
    fn put_digits(&mut self, count: usize, number: u64) -> Result<(), SinkFault> {
        self.make_room(count)?;
        self.keep_digits(count, number);
        Ok(())
    }
}
