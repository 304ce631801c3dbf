// Written by dist/erase from crates/cqlp_encode/src/staged.rt.
//! Bytes on their way to a target.

use crate::cqlp_note::{Target, offer};

/// How many bytes wait at most before they are passed on.
const ROOM: usize = 512;

/// Gathers small pieces, so that a target gets them in few calls, and counts what it took: but for two, the calls have 256 bytes each on
/// average. After the target failed once nothing more is passed on.
pub struct Staged<'a, W: Target> {
    target: &'a mut W,
    buffer: [u8; ROOM],
    len: usize,
    /// How many bytes the target took, or had from before.
    taken: u64,
    /// How many of the bytes to come the target has from before.
    skip: u64,
    failed: bool,
}

impl<'a, W: Target> Staged<'a, W> {
    /// With nothing that waits. The target has the first of the bytes to come, this many, from before.
    pub fn new(target: &'a mut W, skip: u64) -> Self {
        Staged {
            target,
            buffer: [0; ROOM],
            len: 0,
            taken: 0,
            skip,
            failed: false,
        }
    }

    /// How many bytes the target took or had from before, 2^64 - 1 where there are more.
    pub fn taken(&self) -> u64 {
        self.taken
    }

    /// The target, which did not get what waits.
    pub fn into_inner(self) -> &'a mut W {
        let Staged {
            target,
            buffer: _,
            len: _,
            taken: _,
            skip: _,
            failed: _,
        } = self;
        target
    }

    /// Takes bytes.
    #[inline(always)]
    pub fn put(&mut self, bytes: &[u8]) {
        if self.len + bytes.len() > ROOM {
            self.put_after_flush(bytes);
        } else {
            self.keep(bytes);
        }
    }

    /// Takes at most 256 bytes. Where the compiler knows how many, it asks once whether there is room.
    #[inline(always)]
    pub(crate) fn put_few(&mut self, bytes: &[u8]) {
        if self.len > ROOM - bytes.len() {
            self.put_after_flush(bytes);
        } else {
            self.keep(bytes);
        }
    }

    /// Takes a content after its length of four bytes, and asks once whether there is room for both.
    #[inline(always)]
    pub fn put_content(&mut self, content: &[u8]) {
        if self.len + content.len() > ROOM - 4 {
            self.put_count32(content.len());
            self.put(content);
        } else {
            let bytes = content.len().to_be_bytes();
            self.keep(&bytes[4..]);
            self.keep(content);
        }
    }

    /// How many bytes wait.
    #[inline(always)]
    pub fn waiting(&self) -> usize {
        self.len
    }

    /// Takes at most 256 bytes where there is room for them without passing anything on, and answers whether there is.
    #[inline(always)]
    pub(crate) fn keep_few(&mut self, bytes: &[u8]) -> bool {
        if self.len > ROOM - bytes.len() {
            return false;
        }
        self.keep(bytes);
        true
    }

    /// The same of any bytes.
    #[inline(always)]
    pub fn keep_many(&mut self, bytes: &[u8]) -> bool {
        if self.len + bytes.len() > ROOM {
            return false;
        }
        self.keep(bytes);
        true
    }

    /// Writes the length of what waits from `start + 4` on into the four bytes before it.
    #[inline(always)]
    pub(crate) fn write_length(&mut self, start: usize) {
        let len = (self.len - start - 4).to_be_bytes();
        self.buffer[start..start + 4].copy_from_slice(&len[4..]);
    }

    /// Lets go of what waits after the first `len` bytes.
    #[inline(always)]
    pub(crate) fn cut(&mut self, len: usize) {
        self.len = len;
    }

    /// Takes bytes that there is no room for, once all that waits is passed on.
    fn put_after_flush(&mut self, bytes: &[u8]) {
        self.flush();
        if bytes.len() > ROOM {
            self.pass_on(bytes);
        } else {
            self.keep(bytes);
        }
    }

    /// Passes on all that waits.
    pub fn flush(&mut self) {
        let len = self.len;
        self.len = 0;
        if !self.failed {
            let count = offer_after(self.target, self.skip, &self.buffer[..len]);
            self.skip = self.skip.saturating_sub(count as u64);
            self.taken = self.taken.saturating_add(count as u64);
            self.failed = count < len;
        }
    }

    /// Passes on more bytes than may wait, where nothing waits.
    fn pass_on(&mut self, bytes: &[u8]) {
        if !self.failed {
            let count = offer_after(self.target, self.skip, bytes);
            self.skip = self.skip.saturating_sub(count as u64);
            self.taken = self.taken.saturating_add(count as u64);
            self.failed = count < bytes.len();
        }
    }

    /// Takes bytes that there is room for.
    #[inline(always)]
    fn keep(&mut self, bytes: &[u8]) {
        let end = self.len + bytes.len();
        self.buffer[self.len..end].copy_from_slice(bytes);
        self.len = end;
    }
}

/// Passes bytes on, but for the first of them, this many, until the target fails, and answers how many of them it took or had from before. One call
/// takes all that there are to pass on, or none does.
#[inline(always)]
pub fn offer_after<W: Target>(target: &mut W, skip: u64, bytes: &[u8]) -> usize {
    let from = (bytes.len() as u64).min(skip) as usize;
    from + offer(target, &bytes[from..])
}
