// Written by dist/erase from crates/cqlp_type/src/item.rt.
//! What is read of a type option.

use crate::cqlp_kind::Kind;
use crate::cqlp_note::{Field, Refusal};

/// A part of a type option. Section 4.2.5.2 of `native_protocol_v4.spec`.
#[derive(Clone, Copy)]
pub enum TypeItem<'a> {
    /// The id of an option, of the type itself or of an inner one.
    Node(Kind),
    /// The class of a custom type, or the keyspace, the name or the name of a field of a user-defined type.
    Text(Field, &'a str),
    /// How many fields a user-defined type or a tuple has.
    Count(u32),
}

/// What a piece of input made of a type option.
#[derive(Clone, Copy)]
pub enum TypePush<'a> {
    /// All of it was used, and the option goes on.
    More {
        used: usize,
    },
    /// This many of its bytes end a part, which began at this offset.
    Item {
        at: u64,
        used: usize,
        item: TypeItem<'a>,
    },
    /// The option is whole. No byte was used.
    Done,
    /// The option ends, since it is refused.
    Refused(Refusal),
}
