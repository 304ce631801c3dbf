//! What the sources use of `hex`.
use crate::kit_std::vec::{KitVec, Vec};

#[derive(Clone, Copy, Debug, PartialEq, Eq)]
pub enum FromHexError {
    NoHex,
    OutOfMemory,
}

/// Writes two lower case digits for each byte.
#[inline(always)]
pub fn encode_to_slice(bytes: &[u8], digits: &mut [u8]) -> Result<(), FromHexError> {
    let digit = |n: u8| n + b'0' + u8::from(n > 9) * (b'a' - b'9' - 1);
    if digits.len() != 2 * bytes.len() {
        return Err(FromHexError::NoHex);
    }
    for (byte, pair) in bytes.iter().zip(digits.chunks_exact_mut(2)) {
        pair.copy_from_slice(&[digit(byte >> 4), digit(byte & 15)]);
    }
    Ok(())
}

/// The bytes that pairs of digits are.
#[allow(dead_code)]
pub fn decode(digits: &[u8]) -> Result<Vec<u8>, FromHexError> {
    let digit = |n: u8| char::from(n).to_digit(16).and_then(|n| u8::try_from(n).ok()).ok_or(FromHexError::NoHex);
    let pairs = digits.chunks_exact(2);
    if !pairs.remainder().is_empty() {
        return Err(FromHexError::NoHex);
    }
    let mut bytes = Vec::kit_with_capacity(pairs.len()).map_err(|_| FromHexError::OutOfMemory)?;
    for pair in pairs {
        bytes.push_reserved(digit(pair[0])? << 4 | digit(pair[1])?);
    }
    Ok(bytes)
}
