// Written by dist/erase from crates/cqlp_type/src/advance.rt.
//! What a piece of input makes of a type option, with nothing borrowed.

use crate::cqlp_type::item::TypeItem;
use crate::cqlp_kind::Kind;
use crate::cqlp_note::{Field, FieldOutline, Partial, Prim, Refusal};

/// A part of a type option, or where its text lies.
#[derive(Clone, Copy)]
pub enum TypeOutline {
    Node(Kind),
    Text(Field, FieldOutline),
    Count(u32),
}

/// What a piece of input made of a type option, with nothing borrowed.
#[derive(Clone, Copy)]
pub enum TypeAdvance {
    /// All of it was used, and the option goes on.
    More {
        used: usize,
    },
    /// This many of its bytes end a part, which began at this offset.
    Item {
        at: u64,
        used: usize,
        item: TypeOutline,
    },
    /// The option is whole. No byte was used.
    Done,
    /// The option ends, since it is refused.
    Refused(Refusal),
}

impl TypeOutline {
    /// The part, with its text lent from where it lies.
    #[cfg_attr(not(feature = "cli"), inline)]
    pub(crate) fn lend<'a>(self, partial: &'a Partial, input: &'a [u8]) -> TypeItem<'a> {
        match self {
            TypeOutline::Node(kind) => TypeItem::Node(kind),
            TypeOutline::Count(count) => TypeItem::Count(count),
            TypeOutline::Text(field, item) => match partial.lend(input, item) {
                Prim::Text(text) => TypeItem::Text(field, text),
                _ => unreachable!(),
            },
        }
    }
}
