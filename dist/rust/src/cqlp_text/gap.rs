// Written by dist/erase from crates/cqlp_text/src/gap.rt.
//! What comes in front of a value of a page.

/// What comes in front of a value of a page.
#[derive(Clone, Copy, Debug, PartialEq, Eq)]
pub enum Gap {
    /// Nothing: in front of a row's first cell, and of a value's first item.
    Nothing,
    /// Between two cells.
    Bar,
    /// Between a key and its value.
    Colon,
    /// Between two items.
    Comma,
}

impl Gap {
    /// Four bytes, the first of which are its text.
    #[inline(always)]
    pub(crate) fn padded(self) -> [u8; 4] {
        match self {
            Gap::Nothing => *b"    ",
            Gap::Bar => *b" |  ",
            Gap::Colon => *b":   ",
            Gap::Comma => *b",   ",
        }
    }

    /// How many bytes its text has.
    #[inline(always)]
    pub(crate) fn len(self) -> usize {
        match self {
            Gap::Nothing => 0,
            Gap::Bar => 3,
            Gap::Colon | Gap::Comma => 2,
        }
    }
}
