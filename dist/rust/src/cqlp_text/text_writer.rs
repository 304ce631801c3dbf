// Written by dist/erase from crates/cqlp_text/src/text_writer.rt.
//! Text on its way to a target.

use crate::cqlp_text::buffered::Buffered;
use crate::cqlp_text::gap::Gap;
use crate::cqlp_text::line_pen::LinePen;
use crate::cqlp_text::pen::Pen;
use crate::cqlp_grammar::SinkFault;
use crate::cqlp_note::Target;

/// Writes texts with a pen.
pub struct TextWriter<P: Pen> {
    pen: P,
}

impl<P: Pen> TextWriter<P> {
    /// With this pen.
    pub fn new(pen: P) -> Self {
        TextWriter { pen }
    }

    /// The pen.
    pub fn into_inner(self) -> P {
        let TextWriter { pen } = self;
        pen
    }

    /// Takes a text.
    #[inline(always)]
    pub fn put(&mut self, bytes: &[u8]) -> Result<(), SinkFault> {
        self.pen.put(bytes)
    }

    /// Takes a number as decimal digits.
    #[inline(always)]
    pub fn put_number(&mut self, number: u64) -> Result<(), SinkFault> {
        self.pen.put_number(number)
    }

    /// Takes a number as decimal digits, behind a gap and, where a line ends, before its end. It may
    /// take nothing, and then answers false.
    #[inline(always)]
    pub(crate) fn takes_item(&mut self, gap: Gap, number: u64, ends_line: bool) -> bool {
        self.pen.takes_item(gap, number, ends_line)
    }

    /// Takes a text in quotes in the same way.
    #[inline(always)]
    pub(crate) fn takes_text(&mut self, gap: Gap, text: &str, ends_line: bool) -> bool {
        self.pen.takes_text(gap, text, ends_line)
    }

    /// Takes this many digits of a number, with leading zeros.
    #[inline(always)]
    pub(crate) fn put_digits(&mut self, count: usize, number: u64) -> Result<(), SinkFault> {
        self.pen.put_digits(count, number)
    }
}

impl<'a, W: Target> TextWriter<LinePen<'a, W>> {
    /// In front of a target, with nothing that waits.
    pub fn over(target: &'a mut W) -> Self {
        TextWriter::new(LinePen::new(target))
    }

    /// The target, which did not get what waits.
    pub fn into_target(self) -> &'a mut W {
        self.into_inner().into_inner()
    }

    /// Passes on all that waits; after a fault nothing waits either.
    #[inline(always)]
    pub fn flush(&mut self) -> Result<(), SinkFault> {
        self.pen.flush()
    }
}

impl<W: Target> TextWriter<Buffered<W>> {
    /// Passes on all that waits in the buffer; after a fault nothing waits either.
    pub fn pass_on(&mut self) -> Result<(), SinkFault> {
        self.pen.flush()
    }
}
