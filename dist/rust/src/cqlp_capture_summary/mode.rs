// Written by dist/erase from crates/cqlp_capture_summary/src/mode.rt.
//! Where a statement is being read.

/// Where a statement is being read.
#[derive(Clone, Copy)]
pub(crate) enum Mode {
    /// Between words, numbers, texts and comments.
    Between,
    /// In a word of so many hexadecimal digits, or at 9 of others too.
    Word(u8),
    /// In a number, likewise.
    Number(u8),
    /// Behind an `e` of a number, likewise.
    Exponent(u8),
    Uuid,
    /// In a text between quotes.
    Text,
    /// Behind a quote that ends a text, or is the first of two.
    TextEnd,
    /// In a name between double quotes.
    Name,
    /// In a text between `$$`.
    Dollars,
    DollarsEnd,
    /// In a comment up to the end of the line.
    Line,
    /// In a comment up to `*/`.
    Block,
    BlockEnd,
}
