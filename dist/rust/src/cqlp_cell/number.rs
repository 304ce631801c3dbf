// Written by dist/erase from crates/cqlp_cell/src/number.rt.
//! Lengths and counts out of pieces.

use crate::kit_std::prelude::{KitNumber};
use crate::cqlp_note::{FieldAdvance, FieldOutline, Notation, Partial, Prim};

/// What a piece of input makes of an \[int\].
#[derive(Clone, Copy)]
pub(crate) enum Number {
    /// It goes on after the input.
    More,
    /// It is whole after this many bytes of the input; the number is what its bytes are without a sign.
    Got { used: usize, number: u32 },
    /// Its container ends before it does.
    Overrun,
}

/// Takes the next bytes of an \[int\] from `start` in the input on. It begins here, at offset `at` in a container that
/// ends at `end`, or was begun before.
#[inline]
pub(crate) fn take_number(
    partial: &mut Partial,
    begun: bool,
    at: u64,
    end: u64,
    start: usize,
    input: &[u8],
) -> Number {
    if begun {
        resume(partial, input)
    } else if end - at < 4 {
        Number::Overrun
    } else if let Some(bytes) = input[start..].first_chunk() {
        Number::Got {
            used: start + 4,
            number: u32::from_be_bytes(*bytes),
        }
    } else {
        begin(partial, at, end, &input[start..]);
        Number::More
    }
}

/// Takes the next bytes of an \[int\] that was begun before.
#[cfg_attr(not(feature = "cli"), inline)]
fn resume(partial: &mut Partial, input: &[u8]) -> Number {
    match partial.advance(input) {
        FieldAdvance::More { .. } => Number::More,
        FieldAdvance::Got { used, item } => Number::Got {
            used,
            number: number_in(partial, input, item),
        },
        FieldAdvance::Refused(_) => unreachable!(),
    }
}

/// Begins an \[int\] that goes on after the input.
#[cfg_attr(not(feature = "cli"), inline)]
fn begin(partial: &mut Partial, at: u64, end: u64, input: &[u8]) {
    partial.begin(Notation::Int, 0, at, end);
    match partial.advance(input) {
        FieldAdvance::More { .. } => {}
        FieldAdvance::Got { .. } => unreachable!(),
        FieldAdvance::Refused(_) => unreachable!(),
    }
}

/// The unsigned number that the bytes of an \[int\] are.
#[cfg_attr(not(feature = "cli"), inline)]
fn number_in(partial: &Partial, input: &[u8], item: FieldOutline) -> u32 {
    match partial.lend(input, item) {
        Prim::Int(number) => number.kit_other_sign(),
        _ => unreachable!(),
    }
}
