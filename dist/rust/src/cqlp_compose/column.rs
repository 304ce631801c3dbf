// Written by dist/erase from crates/cqlp_compose/src/column.rt.
//! The columns of a page.

use crate::cqlp_message::{Frame, Message, Spec};
use crate::cqlp_type::TypeTree;

/// The type of a column of a page, the first of which is 0, where it is described.
#[inline(always)]
pub fn column_type(frame: &Frame, column: usize) -> Option<&TypeTree> {
    match &frame.message {
        Message::Rows(page) => match &page.meta.specs {
            Some(specs) => spec_type(specs, column),
            None => None,
        },
        _ => None,
    }
}

/// The columns that a page describes; none where it describes none, or is no page.
pub fn described(frame: &Frame) -> &[Spec] {
    match &frame.message {
        Message::Rows(page) => match &page.meta.specs {
            Some(specs) => specs,
            None => &[],
        },
        _ => &[],
    }
}

/// The type of one of these columns.
#[inline(always)]
fn spec_type(specs: &[Spec], column: usize) -> Option<&TypeTree> {
    match specs.get(column) {
        Some(spec) => Some(&spec.tree),
        None => None,
    }
}
