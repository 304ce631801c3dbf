// Written by dist/erase from crates/cqlp_pattern/src/escape.rt.
//! What is behind a `\`.

use crate::cqlp_pattern::bad_pattern::{BadPattern, PatternFault};
use crate::cqlp_pattern::class::Class;

/// A character of ASCII, or a class of characters.
#[derive(Clone, Copy)]
pub(crate) enum Member {
    Character(u8),
    Class(Class),
}

impl Member {
    pub(crate) fn class(self) -> Class {
        match self {
            Member::Character(c) => Class::range(c, c),
            Member::Class(class) => class,
        }
    }
}

/// What the character behind a `\` at this place means.
pub(crate) fn escaped(text: &[u8], at: usize) -> Result<Member, BadPattern> {
    let rest = &text[at.saturating_add(1).min(text.len())..];
    let Some(c) = rest.first() else {
        return Err(BadPattern::new(PatternFault::Escape, at));
    };
    match *c {
        b'd' => Ok(Member::Class(Class::digits())),
        b'D' => Ok(Member::Class(Class::digits().complement())),
        b'w' => Ok(Member::Class(Class::words())),
        b'W' => Ok(Member::Class(Class::words().complement())),
        b's' => Ok(Member::Class(Class::spaces())),
        b'S' => Ok(Member::Class(Class::spaces().complement())),
        b't' => Ok(Member::Character(b'\t')),
        b'n' => Ok(Member::Character(b'\n')),
        b'r' => Ok(Member::Character(b'\r')),
        c if c.is_ascii_punctuation() || c == b' ' => Ok(Member::Character(c)),
        _ => Err(BadPattern::new(PatternFault::Escape, at)),
    }
}
