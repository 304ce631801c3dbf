// Written by dist/erase from crates/cqlp_statement_types/src/split.rt.
//! Lists with commas.

use crate::kit_host::prelude::{KitVec, Vec};
use crate::cqlp_statement_types::name::is_sign;
use crate::cqlp_statement_types::token::Token;
use crate::kit_std::alloc::{AllocError};

/// The items of a list with commas. `None` if a bracket has no other.
pub(crate) fn split<'t, 'a>(
    tokens: &'t [Token<'a>],
) -> Result<Option<Vec<&'t [Token<'a>]>>, AllocError> {
    let mut items = Vec::new();
    let mut depth: u32 = 0;
    let mut from = 0;
    for (at, token) in tokens.iter().enumerate() {
        if depth == 0 && is_sign(*token, b',') {
            items.kit_push(part(tokens, from, at))?;
            from = at.saturating_add(1);
        }
        match depth_behind(depth, *token) {
            Some(behind) => depth = behind,
            None => return Ok(None),
        }
    }
    if depth != 0 {
        return Ok(None);
    }
    items.kit_push(part(tokens, from, tokens.len()))?;
    Ok(Some(items))
}

/// In how many brackets the next token is; `None` behind one that has no other.
pub(crate) fn depth_behind(depth: u32, token: Token<'_>) -> Option<u32> {
    match token {
        Token::Sign(b'(' | b'[' | b'{' | b'<') => depth.checked_add(1),
        Token::Sign(b')' | b']' | b'}' | b'>') => depth.checked_sub(1),
        _ => Some(depth),
    }
}

/// The tokens between two places, as far as there are such.
pub(crate) fn part<'t, 'a>(tokens: &'t [Token<'a>], from: usize, to: usize) -> &'t [Token<'a>] {
    let end = to.min(tokens.len());
    let start = from.min(end);
    &tokens[start..end]
}
