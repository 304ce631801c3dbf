// Written by dist/erase from crates/cqlp_capture_summary/src/class.rt.
//! Classes of bytes in a statement.

/// What a byte may begin.
#[derive(Clone, Copy)]
pub(crate) enum Class {
    Space,
    Digit,
    Letter,
    Quote,
    DoubleQuote,
    QuestionMark,
    Dash,
    Slash,
    Star,
    Dollar,
    Other,
}

pub(crate) fn class_of(byte: u8) -> Class {
    if is_space(byte) {
        Class::Space
    } else if is_digit(byte) {
        Class::Digit
    } else if is_letter(byte) {
        Class::Letter
    } else if byte == b'\'' {
        Class::Quote
    } else if byte == b'"' {
        Class::DoubleQuote
    } else if byte == b'?' {
        Class::QuestionMark
    } else if byte == b'-' {
        Class::Dash
    } else if byte == b'/' {
        Class::Slash
    } else if byte == b'*' {
        Class::Star
    } else if byte == b'$' {
        Class::Dollar
    } else {
        Class::Other
    }
}

/// Whether a number is none below the one and none above the other.
fn is_among(byte: u8, least: u8, greatest: u8) -> bool {
    least <= byte && byte <= greatest
}

fn is_space(byte: u8) -> bool {
    byte == b' ' || is_among(byte, 9, 13)
}

fn is_digit(byte: u8) -> bool {
    is_among(byte, b'0', b'9')
}

fn is_letter(byte: u8) -> bool {
    is_among(byte, b'A', b'Z') || is_among(byte, b'a', b'z') || byte == b'_' || byte >= 128
}

pub(crate) fn is_hex(byte: u8) -> bool {
    is_digit(byte) || is_among(byte, b'A', b'F') || is_among(byte, b'a', b'f')
}

/// Whether a word goes on with a byte.
pub(crate) fn is_word(byte: u8) -> bool {
    is_digit(byte) || is_letter(byte)
}

/// Whether a number goes on with a byte.
pub(crate) fn is_number(byte: u8) -> bool {
    is_word(byte) || byte == b'.'
}

/// How many hexadecimal digits a word is made of, with this byte; 9 where it is no more the beginning of a uuid.
pub(crate) fn hex_with(byte: u8, count: u8) -> u8 {
    if is_hex(byte) && count < 8 {
        count + 1
    } else {
        9
    }
}

/// Whether a byte is the first dash of a uuid, behind so many hexadecimal digits.
pub(crate) fn is_uuid(byte: u8, count: u8) -> bool {
    byte == b'-' && count == 8
}

/// Whether a sign behind this byte belongs to a number.
pub(crate) fn is_opening(byte: u8) -> bool {
    byte == 0
        || byte == b'('
        || byte == b'*'
        || byte == b'+'
        || byte == b','
        || byte == b'-'
        || byte == b'/'
        || byte == b':'
        || is_among(byte, b'<', b'>')
        || byte == b'%'
        || byte == b'['
        || byte == b'{'
}
