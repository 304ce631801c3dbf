// Written by dist/erase from crates/cqlp_text/src/buffered.rt.
//! A pen with a large buffer.

use crate::kit_std::prelude::{Vec};
use crate::cqlp_text::digits::{DECIMAL_ROOM, fill_with_digits, place, place_digits, place_number};
use crate::cqlp_text::escape::is_plain_text;
use crate::cqlp_text::gap::Gap;
use crate::cqlp_text::items::{ITEM_ROOM, TEXT_MARGIN, place_item, place_text};
use crate::cqlp_text::pen::Pen;
use crate::cqlp_text::sending::send;
use crate::cqlp_grammar::SinkFault;
use crate::cqlp_note::Target;

/// Passes text on to a target in pieces as large as a buffer. Nothing waits after a `flush`, nor after a fault.
pub struct Buffered<W: Target> {
    target: W,
    buffer: Vec<u8>,
    /// How many bytes of the buffer wait.
    len: usize,
}

impl<W: Target> Buffered<W> {
    /// With nothing that waits. As much may wait as the buffer is long.
    pub(crate) fn new(target: W, buffer: Vec<u8>) -> Self {
        Buffered {
            target,
            buffer,
            len: 0,
        }
    }

    /// Passes on all that waits; after a fault nothing waits either.
    #[inline(never)]
    pub fn flush(&mut self) -> Result<(), SinkFault> {
        let len = self.len;
        self.len = 0;
        send(&mut self.target, &self.buffer[..len])
    }

    /// The target, which did not get what waits.
    #[must_use]
    pub fn into_inner(self) -> W {
        let Buffered {
            target,
            buffer: _,
            len: _,
        } = self;
        target
    }

    /// Takes a text after what waits was passed on.
    #[cold]
    #[inline(never)]
    fn put_afresh(&mut self, bytes: &[u8]) -> Result<(), SinkFault> {
        self.flush()?;
        self.restart(bytes)
    }

    /// Takes a text where nothing waits: it waits where the buffer has room for it, and is passed on at once where not.
    fn restart(&mut self, bytes: &[u8]) -> Result<(), SinkFault> {
        self.len = 0;
        if bytes.len() > self.buffer.len() {
            return send(&mut self.target, bytes);
        }
        place(bytes, &mut self.buffer, 0);
        self.len = bytes.len();
        Ok(())
    }

    /// Takes a number as decimal digits after what waits was passed on.
    #[cold]
    #[inline(never)]
    fn put_number_afresh(&mut self, number: u64) -> Result<(), SinkFault> {
        let mut room = crate::itoa::Buffer::new();
        self.put_afresh(room.format(number).as_bytes())
    }

    /// Takes this many digits of a number after what waits was passed on.
    #[cold]
    #[inline(never)]
    fn put_digits_afresh(&mut self, count: usize, number: u64) -> Result<(), SinkFault> {
        let mut room = [0; 128];
        fill_with_digits(number, &mut room[..count]);
        self.put_afresh(&room[..count])
    }
}

impl<W: Target> Pen for Buffered<W> {
    #[inline(always)]
    fn put(&mut self, bytes: &[u8]) -> Result<(), SinkFault> {
        if bytes.len() > self.buffer.len() - self.len {
            return self.put_afresh(bytes);
        }
        place(bytes, &mut self.buffer, self.len);
        self.len += bytes.len();
        Ok(())
    }

    #[inline(always)]
    fn put_number(&mut self, number: u64) -> Result<(), SinkFault> {
        if DECIMAL_ROOM > self.buffer.len() - self.len {
            return self.put_number_afresh(number);
        }
        let len = place_number(number, &mut self.buffer, self.len);
        self.len += len;
        Ok(())
    }

    #[inline(always)]
    fn takes_item(&mut self, gap: Gap, number: u64, ends_line: bool) -> bool {
        if ITEM_ROOM > self.buffer.len() - self.len {
            return false;
        }
        let len = place_item(gap, number, ends_line, &mut self.buffer, self.len);
        self.len += len;
        true
    }

    #[inline(always)]
    fn takes_text(&mut self, gap: Gap, text: &str, ends_line: bool) -> bool {
        let room = self.buffer.len() - self.len;
        if room < TEXT_MARGIN {
            return false;
        }
        let bytes = text.as_bytes();
        if bytes.len() > room - TEXT_MARGIN {
            return false;
        }
        if !is_plain_text(bytes) {
            return false;
        }
        let len = place_text(gap, bytes, ends_line, &mut self.buffer, self.len);
        self.len += len;
        true
    }

    #[inline(always)]
    fn put_digits(&mut self, count: usize, number: u64) -> Result<(), SinkFault> {
        if count > self.buffer.len() - self.len {
            return self.put_digits_afresh(count, number);
        }
        place_digits(number, count, &mut self.buffer, self.len);
        self.len += count;
        Ok(())
    }
}
