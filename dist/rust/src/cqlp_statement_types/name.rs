// Written by dist/erase from crates/cqlp_statement_types/src/name.rt.
//! Names and words.

use crate::kit_host::prelude::{KitVec, Vec};
use crate::cqlp_statement_types::token::Token;
use crate::kit_std::alloc::{AllocError};

/// The name that a token spells: a word in lower case, or what is in double quotes as it is. `None` of any other.
pub(crate) fn name_of(token: Token<'_>) -> Result<Option<Vec<u8>>, AllocError> {
    match token {
        Token::Word(word) => Ok(Some(lowered(word)?)),
        Token::Quoted(name) => Ok(Some(unquoted(name)?)),
        Token::Text | Token::Sign(_) => Ok(None),
    }
}

fn lowered(word: &[u8]) -> Result<Vec<u8>, AllocError> {
    let mut name = Vec::new();
    for byte in word {
        name.kit_push(lower(*byte))?;
    }
    Ok(name)
}

/// Each two double quotes are one.
fn unquoted(text: &[u8]) -> Result<Vec<u8>, AllocError> {
    let mut name = Vec::new();
    let mut is_second = false;
    for byte in text {
        is_second = *byte == b'"' && !is_second;
        if *byte != b'"' || is_second {
            name.kit_push(*byte)?;
        }
    }
    Ok(name)
}

/// Whether a word is this one, which is in lower case.
pub(crate) fn is_same(word: &[u8], wanted: &[u8]) -> bool {
    let mut same = word.len() == wanted.len();
    for (byte, other) in word.iter().zip(wanted.iter()) {
        same = same && lower(*byte) == *other;
    }
    same
}

/// Whether a token is this word.
pub(crate) fn is_word(token: Token<'_>, wanted: &[u8]) -> bool {
    match token {
        Token::Word(word) => is_same(word, wanted),
        Token::Quoted(_) | Token::Text | Token::Sign(_) => false,
    }
}

/// Whether a token is this byte.
pub(crate) fn is_sign(token: Token<'_>, wanted: u8) -> bool {
    match token {
        Token::Sign(byte) => byte == wanted,
        Token::Word(_) | Token::Quoted(_) | Token::Text => false,
    }
}

fn lower(byte: u8) -> u8 {
    if b'A' <= byte && byte <= b'Z' {
        byte + 32
    } else {
        byte
    }
}
