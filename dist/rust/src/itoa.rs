//! What the sources use of `itoa`: the decimal digits of a number.
use core::fmt::{Display, Error, Result, Write};

/// Room for a number of 128 bits, and how many digits it has.
pub struct Buffer([u8; 40], usize);

impl Buffer {
    pub fn new() -> Self {
        Buffer([0; 40], 0)
    }

    pub fn format(&mut self, number: impl Display) -> &str {
        self.1 = 0;
        write!(self, "{number}").expect("no number has more than 40 bytes");
        core::str::from_utf8(&self.0[..self.1]).expect("digits")
    }
}

impl Write for Buffer {
    fn write_str(&mut self, digits: &str) -> Result {
        let end = self.1 + digits.len();
        self.0.get_mut(self.1..end).ok_or(Error)?.copy_from_slice(digits.as_bytes());
        self.1 = end;
        Ok(())
    }
}
