// Written by dist/erase from crates/cqlp_text/src/pen.rt.
//! What texts are written with.

use crate::cqlp_text::gap::Gap;
use crate::cqlp_grammar::SinkFault;

/// What takes short texts and numbers, one after the other, on their way to a target.
pub trait Pen {
    /// Takes a text.
    fn put(&mut self, bytes: &[u8]) -> Result<(), SinkFault>;

    /// Takes a number as decimal digits.
    fn put_number(&mut self, number: u64) -> Result<(), SinkFault>;

    /// Takes a number as decimal digits, behind a gap and, where a line ends, before its end. It may
    /// take nothing, and then answers false.
    fn takes_item(&mut self, gap: Gap, number: u64, ends_line: bool) -> bool;

    /// Takes a text in quotes in the same way.
    fn takes_text(&mut self, gap: Gap, text: &str, ends_line: bool) -> bool;

    /// Takes this many digits of a number, with leading zeros.
    fn put_digits(&mut self, count: usize, number: u64) -> Result<(), SinkFault>;
}
