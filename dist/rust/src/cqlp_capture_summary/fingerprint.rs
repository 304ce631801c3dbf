// Written by dist/erase from crates/cqlp_capture_summary/src/fingerprint.rt.
//! What statements have in common that differ in their literals alone.

use crate::kit_host::prelude::{KitVec};
use crate::cqlp_capture_summary::class::{Class, class_of, hex_with, is_hex, is_number, is_uuid, is_word};
use crate::cqlp_capture_summary::mode::Mode;
use crate::cqlp_capture_summary::written::Written;

/// A statement with each literal as `?`, lists of literals as `?+`, and white space and comments as one space. At most 256 bytes.
pub struct Fingerprint {
    written: Written,
}

impl Fingerprint {
    /// Of a statement of which these are the bytes, or the first ones.
    pub fn new(statement: &[u8], is_whole: bool) -> Self {
        let mut written = Written::new(is_whole);
        read(&mut written, statement);
        written.trim();
        Fingerprint { written }
    }

    pub fn as_slice(&self) -> &[u8] {
        self.written.as_slice()
    }

    /// Whether it is that of a whole statement, and all of it.
    pub fn is_whole(&self) -> bool {
        self.written.is_whole()
    }
}

fn read(written: &mut Written, statement: &[u8]) {
    let mut mode = Mode::Between;
    for byte in statement {
        mode = read_byte(written, mode, *byte);
    }
}

fn read_byte(written: &mut Written, mode: Mode, byte: u8) -> Mode {
    match mode {
        Mode::Between => begin(written, byte),
        Mode::Word(count) => in_word(written, byte, count),
        Mode::Number(count) => in_digits(written, byte, count),
        Mode::Exponent(count) => in_exponent(written, byte, count),
        Mode::Uuid => in_uuid(written, byte),
        Mode::TextEnd => behind_text(written, byte),
        Mode::Name => in_name(written, byte),
        Mode::Text => in_text(byte),
        Mode::Dollars => in_dollars(byte),
        Mode::DollarsEnd => behind_dollar(byte),
        Mode::Line => in_line(byte),
        Mode::Block => in_block(byte),
        Mode::BlockEnd => behind_star(byte),
    }
}

/// A byte behind a whole word, number, text or comment.
fn begin(written: &mut Written, byte: u8) -> Mode {
    let class = class_of(byte);
    let mode = mode_at(written, class, byte);
    write_at(written, class, byte);
    mode
}

fn mode_at(written: &Written, class: Class, byte: u8) -> Mode {
    match class {
        Class::Space => Mode::Between,
        Class::Digit => Mode::Number(1),
        Class::Letter => Mode::Word(hex_with(byte, 0)),
        Class::Quote => Mode::Text,
        Class::DoubleQuote => Mode::Name,
        Class::QuestionMark => Mode::Between,
        Class::Dash => mode_behind(written, b'-', Mode::Line),
        Class::Slash => mode_behind(written, b'/', Mode::Line),
        Class::Star => mode_behind(written, b'/', Mode::Block),
        Class::Dollar => mode_behind(written, b'$', Mode::Dollars),
        Class::Other => Mode::Between,
    }
}

/// This mode where this byte is the last one.
fn mode_behind(written: &Written, before: u8, mode: Mode) -> Mode {
    if written.back(1) == before {
        mode
    } else {
        Mode::Between
    }
}

fn write_at(written: &mut Written, class: Class, byte: u8) {
    match class {
        Class::Space => written.space(),
        Class::Digit => {
            written.drop_sign();
            written.literal();
        }
        Class::Letter => written.kit_push(byte),
        Class::Quote => written.literal(),
        Class::DoubleQuote => written.kit_push(byte),
        Class::QuestionMark => written.literal(),
        Class::Dash => written.push_or_space(b'-', byte),
        Class::Slash => written.push_or_space(b'/', byte),
        Class::Star => written.push_or_space(b'/', byte),
        Class::Dollar => written.push_or_literal(byte),
        Class::Other => written.kit_push(byte),
    }
}

fn in_word(written: &mut Written, byte: u8, count: u8) -> Mode {
    if is_word(byte) {
        written.kit_push(byte);
        return Mode::Word(hex_with(byte, count));
    }
    if is_uuid(byte, count) {
        written.cut(8);
        written.literal();
        return Mode::Uuid;
    }
    begin(written, byte)
}

fn in_digits(written: &mut Written, byte: u8, count: u8) -> Mode {
    if is_number(byte) {
        return in_number(byte, count);
    }
    if is_uuid(byte, count) {
        return Mode::Uuid;
    }
    begin(written, byte)
}

fn in_exponent(written: &mut Written, byte: u8, count: u8) -> Mode {
    if is_number(byte) {
        return in_number(byte, count);
    }
    if is_uuid(byte, count) {
        return Mode::Uuid;
    }
    if byte == b'-' || byte == b'+' {
        return Mode::Number(9);
    }
    begin(written, byte)
}

/// A byte with which a number goes on.
fn in_number(byte: u8, count: u8) -> Mode {
    let count = hex_with(byte, count);
    if byte == b'E' || byte == b'e' {
        Mode::Exponent(count)
    } else {
        Mode::Number(count)
    }
}

fn in_uuid(written: &mut Written, byte: u8) -> Mode {
    if is_hex(byte) || byte == b'-' {
        return Mode::Uuid;
    }
    begin(written, byte)
}

fn behind_text(written: &mut Written, byte: u8) -> Mode {
    if byte == b'\'' {
        return Mode::Text;
    }
    begin(written, byte)
}

fn in_name(written: &mut Written, byte: u8) -> Mode {
    written.kit_push(byte);
    if byte == b'"' {
        Mode::Between
    } else {
        Mode::Name
    }
}

fn in_text(byte: u8) -> Mode {
    if byte == b'\'' {
        Mode::TextEnd
    } else {
        Mode::Text
    }
}

fn in_dollars(byte: u8) -> Mode {
    if byte == b'$' {
        Mode::DollarsEnd
    } else {
        Mode::Dollars
    }
}

fn behind_dollar(byte: u8) -> Mode {
    if byte == b'$' {
        Mode::Between
    } else {
        Mode::Dollars
    }
}

fn in_line(byte: u8) -> Mode {
    if byte == b'\n' || byte == b'\r' {
        Mode::Between
    } else {
        Mode::Line
    }
}

fn in_block(byte: u8) -> Mode {
    if byte == b'*' {
        Mode::BlockEnd
    } else {
        Mode::Block
    }
}

fn behind_star(byte: u8) -> Mode {
    match byte {
        b'/' => Mode::Between,
        b'*' => Mode::BlockEnd,
        _ => Mode::Block,
    }
}
