// Written by dist/erase from crates/cqlp_pattern/src/class.rt.
//! Classes of characters.

/// Some characters: those of ASCII that have their bit, and all others or none of them.
#[derive(Clone, Copy)]
pub(crate) struct Class {
    pub(crate) ascii: u128,
    pub(crate) has_others: bool,
}

impl Class {
    /// No character.
    pub(crate) const NONE: Class = Class {
        ascii: 0,
        has_others: false,
    };

    /// Each character.
    pub(crate) const ANY: Class = Class {
        ascii: u128::MAX,
        has_others: true,
    };

    /// The characters of ASCII from one to another.
    pub(crate) fn range(first: u8, last: u8) -> Class {
        let mut ascii = 0;
        for c in 0_u8..128 {
            if first <= c && c <= last {
                ascii |= 1_u128 << c;
            }
        }
        Class {
            ascii,
            has_others: false,
        }
    }

    /// 0 to 9.
    pub(crate) fn digits() -> Class {
        Class::range(b'0', b'9')
    }

    /// Letters and digits of ASCII, and `_`.
    pub(crate) fn words() -> Class {
        let letters = Class::range(b'A', b'Z').union(Class::range(b'a', b'z'));
        letters
            .union(Class::digits())
            .union(Class::range(b'_', b'_'))
    }

    /// A blank, a tabulator and the ends of lines and pages.
    pub(crate) fn spaces() -> Class {
        Class::range(b'\t', b'\r').union(Class::range(b' ', b' '))
    }

    /// The characters of either.
    pub(crate) fn union(self, other: Class) -> Class {
        Class {
            ascii: self.ascii | other.ascii,
            has_others: self.has_others || other.has_others,
        }
    }

    /// All other characters.
    pub(crate) fn complement(self) -> Class {
        Class {
            ascii: !self.ascii,
            has_others: !self.has_others,
        }
    }

    /// These, and the letters of ASCII that differ from one of them in their case alone.
    pub(crate) fn caseless(self) -> Class {
        let upper = self.ascii & Class::range(b'A', b'Z').ascii;
        let lower = self.ascii & Class::range(b'a', b'z').ascii;
        Class {
            ascii: self.ascii | upper << 32 | lower >> 32,
            has_others: self.has_others,
        }
    }
}
