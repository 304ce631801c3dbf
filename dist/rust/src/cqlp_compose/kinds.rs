// Written by dist/erase from crates/cqlp_compose/src/kinds.rt.
//! The kinds of a page's columns.

use crate::kit_std::prelude::{KitVec, Vec};
use crate::cqlp_compose::error::KindsError;
use crate::cqlp_compose::single::plain_kind;
use crate::cqlp_kind::Kind;
use crate::cqlp_message::Spec;

/// The kinds of these columns, in their order.
pub(crate) fn kinds_of(specs: &[Spec]) -> Result<Vec<Kind>, KindsError> {
    let Ok(mut kinds) = Vec::kit_with_capacity(specs.len()) else {
        return Err(KindsError::NoMemory);
    };
    for spec in specs {
        match plain_kind(Some(&spec.tree)) {
            Some(kind) => kinds.push_reserved(kind),
            None => return Err(KindsError::Nested),
        }
    }
    Ok(kinds)
}

/// The kind of a column, which is raw where none is known.
#[inline(always)]
pub(crate) fn kind_in(kinds: &[Kind], column: usize) -> Kind {
    match kinds.get(column) {
        Some(kind) => *kind,
        None => Kind::Raw,
    }
}
