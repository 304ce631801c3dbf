// Written by dist/erase from crates/cqlp_decode/src/given.rt.
//! Tables of types that the caller gives, for pages whose metadata has none.
//!
//! `Decoder::give` takes one, unless a [`GiveReason`] is against it. It waits for the first page that it fits, which `serves`
//! in page.rt says, types that page's cells in place of the metadata's table (`page_table`), and no other page after it.

use crate::cqlp_type::TypeTable;

/// What a table that the caller gave is for.
#[derive(Clone, Copy)]
pub enum GivenUse {
    /// It waits for a page that it fits.
    Waiting,
    /// It types the page of the frame under way.
    InUse,
    /// The frame whose page it typed has ended.
    Used,
}

error! {
/// Why a table was not taken.
#[derive(Clone, Copy, Debug, PartialEq, Eq)]
pub enum GiveReason {
    /// The stream was refused.
    #[error("the stream was refused")]
    Ended,
    /// The limits say that cells are not read by their types.
    #[error("cells are not read by their types")]
    Off,
    /// The table that was given before types the frame under way.
    #[error("a given table is in use")]
    Busy,
    /// A type of the table is under way.
    #[error("a type of the table is not whole")]
    Open,
    /// The table has more types than the limit on `entries`.
    #[error("the table has more types than the limit")]
    TooMany,
    /// The types are nested deeper than the limit on `depth`.
    #[error("the types are nested deeper than the limit")]
    TooDeep,
}
}

/// A table that was not taken, and why.
pub struct GiveError {
    /// The first reason against it, in the order of the variants.
    pub why: GiveReason,
    /// The table as the caller gave it, which the decoder did not keep.
    pub table: TypeTable,
}

impl GivenUse {
    /// What the table is for where a page begins, which it types or not.
    pub fn with_page(self, served: bool) -> Self {
        if served { GivenUse::InUse } else { self }
    }

    /// What the table is for after the end of a frame.
    pub fn ended(self) -> Self {
        match self {
            GivenUse::InUse => GivenUse::Used,
            GivenUse::Waiting | GivenUse::Used => self,
        }
    }
}
