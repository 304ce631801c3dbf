// Written by dist/erase from crates/cqlp_options/src/reported.rt.
//! Words as a mistake in them is reported.

use crate::kit_host::prelude::{KitText, KitVec, String, Vec};
use crate::kit_std::alloc::{AllocError};

/// The words, each in one line: a character that does not print is written as its two hexadecimal digits.
pub(crate) fn report_all(words: &[&str]) -> Result<Vec<String>, AllocError> {
    let mut texts = Vec::new();
    for word in words {
        texts.kit_push(report(word)?)?;
    }
    Ok(texts)
}

/// A word in one line.
fn report(word: &str) -> Result<String, AllocError> {
    let mut text = String::new();
    for c in word.chars() {
        push_reported(&mut text, c)?;
    }
    Ok(text)
}

fn push_reported(text: &mut String, c: char) -> Result<(), AllocError> {
    if !c.is_ascii_control() {
        return text.kit_push(c);
    }
    text.kit_push_str("\\x")?;
    push_digit(text, u32::from(c) / 16)?;
    push_digit(text, u32::from(c) % 16)
}

/// Appends a hexadecimal digit.
fn push_digit(text: &mut String, digit: u32) -> Result<(), AllocError> {
    text.kit_push(char::from_digit(digit, 16).unwrap())
}
