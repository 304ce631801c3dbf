// Written by dist/erase from crates/cqlp_pattern/src/token.rt.
//! Tokens of a pattern.

use crate::cqlp_pattern::bad_pattern::{BadPattern, PatternFault};
use crate::cqlp_pattern::brackets::{byte_at, read_brackets};
use crate::cqlp_pattern::class::Class;
use crate::cqlp_pattern::escape::escaped;

/// How often something is there at most.
pub(crate) const MOST_REPEATS: u8 = 128;

#[derive(Clone, Copy)]
pub(crate) enum Token {
    /// One character of a class.
    One(Class),
    /// One character that is none of a class.
    Other(Class),
    /// A character that is not ASCII, by its bytes.
    Wide,
    /// Where a text begins.
    Begin,
    /// Where a text ends.
    End,
    /// `(` or `(?:`.
    Open,
    /// `)`.
    Close,
    /// `|`.
    Or,
    /// What comes before, so many times, up to so many if there is a limit.
    Repeat { least: u8, most: Option<u8> },
}

/// A token, and the place behind it.
#[derive(Clone, Copy)]
pub(crate) struct TokenRead {
    pub(crate) token: Token,
    pub(crate) next: usize,
}

/// The token at this place.
pub(crate) fn read_token(text: &[u8], at: usize) -> Result<TokenRead, BadPattern> {
    let next = at + 1;
    match text[at] {
        b'.' => Ok(found(Token::One(Class::ANY), next)),
        b'^' => Ok(found(Token::Begin, next)),
        b'$' => Ok(found(Token::End, next)),
        b'|' => Ok(found(Token::Or, next)),
        b')' => Ok(found(Token::Close, next)),
        b'(' => read_open(text, at),
        b'*' => Ok(repeat(text, 0, None, next)),
        b'+' => Ok(repeat(text, 1, None, next)),
        b'?' => Ok(repeat(text, 0, Some(1), next)),
        b'{' => read_repeat(text, at),
        b'[' => {
            let read = read_brackets(text, at)?;
            Ok(found(class_token(read.class, read.is_negated), read.next))
        }
        b'\\' => {
            let member = escaped(text, at)?;
            Ok(found(Token::One(member.class()), at.saturating_add(2)))
        }
        c if c < 128 => Ok(found(Token::One(Class::range(c, c)), next)),
        _ => Ok(found(Token::Wide, end_of_character(text, next))),
    }
}

fn class_token(class: Class, is_negated: bool) -> Token {
    if is_negated {
        Token::Other(class)
    } else {
        Token::One(class)
    }
}

fn found(token: Token, next: usize) -> TokenRead {
    TokenRead { token, next }
}

/// The place behind the bytes that go on with a character.
fn end_of_character(text: &[u8], from: usize) -> usize {
    for at in from..text.len() {
        if text[at] & 0xc0 != 0x80 {
            return at;
        }
    }
    text.len()
}

fn read_open(text: &[u8], at: usize) -> Result<TokenRead, BadPattern> {
    let next = at.saturating_add(1);
    if byte_at(text, next) != Some(b'?') {
        return Ok(found(Token::Open, next));
    }
    if byte_at(text, next.saturating_add(1)) == Some(b':') {
        return Ok(found(Token::Open, next.saturating_add(2)));
    }
    Err(BadPattern::new(PatternFault::SpecialGroup, at))
}

/// A repetition, with the `?` that asks for few where matches have places, which those of a filter have not.
fn repeat(text: &[u8], least: u8, most: Option<u8>, next: usize) -> TokenRead {
    let is_lazy = byte_at(text, next) == Some(b'?');
    let next = if is_lazy {
        next.saturating_add(1)
    } else {
        next
    };
    found(Token::Repeat { least, most }, next)
}

/// `{N}`, `{N,}` or `{N,M}`.
fn read_repeat(text: &[u8], at: usize) -> Result<TokenRead, BadPattern> {
    counted(text, at).ok_or(BadPattern::new(PatternFault::Repeat, at))
}

fn counted(text: &[u8], at: usize) -> Option<TokenRead> {
    let (least, next) = number(text, at.saturating_add(1))?;
    if byte_at(text, next)? == b'}' {
        return Some(repeat(text, least, Some(least), next.saturating_add(1)));
    }
    if byte_at(text, next)? != b',' {
        return None;
    }
    let next = next.saturating_add(1);
    if byte_at(text, next)? == b'}' {
        return Some(repeat(text, least, None, next.saturating_add(1)));
    }
    let (most, next) = number(text, next)?;
    if byte_at(text, next)? == b'}' && least <= most {
        return Some(repeat(text, least, Some(most), next.saturating_add(1)));
    }
    None
}

/// A number of 128 at most, and the place behind it.
fn number(text: &[u8], from: usize) -> Option<(u8, usize)> {
    let mut value: u8 = 0;
    for at in from..text.len() {
        if !text[at].is_ascii_digit() {
            return if at == from { None } else { Some((value, at)) };
        }
        value = value.checked_mul(10)?.checked_add(text[at] - b'0')?;
        if MOST_REPEATS < value {
            return None;
        }
    }
    None
}
