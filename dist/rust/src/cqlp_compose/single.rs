// Written by dist/erase from crates/cqlp_compose/src/single.rt.
//! Cells of one event.

use crate::cqlp_compose::scalar::{Content, content_as};
use crate::cqlp_grammar::Event;
use crate::cqlp_kind::{Kind, Scalar};
use crate::cqlp_type::TypeTree;

/// A cell of one event, as it is written.
#[derive(Clone, Copy)]
pub enum WholeCell<'a> {
    /// A length of -1.
    Null,
    /// A content, after its length.
    Of(Content<'a>),
}

/// The kind of a type without inner types, or of a cell without a type. None of a type whose values have items.
#[inline(always)]
pub fn plain_kind(of: Option<&TypeTree>) -> Option<Kind> {
    match of {
        None => Some(Kind::Raw),
        Some(TypeTree::Plain(kind)) => { if kind.is_plain() { Some(*kind) } else { None } }
        Some(tree) => other_kind(tree),
    }
}

/// The same of any type, as a function of its own: [`plain_kind`] calls it of the others, and finds a plain one by one comparison.
#[inline(never)]
fn other_kind(tree: &TypeTree) -> Option<Kind> {
    match tree {
        TypeTree::Plain(kind) => { if kind.is_plain() { Some(*kind) } else { None } }
        TypeTree::Custom(_) => Some(Kind::Custom),
        _ => None,
    }
}

/// The cell of this type whose one event this is, with at most `most` bytes of texts and other contents that have no length of their own. None where
/// it has more events or bytes, and where the event is of no value of the type; also of a null or an empty value of a type with inner types.
#[inline(always)]
pub fn whole_cell<'a>(event: &Event<'a>, of: Option<&TypeTree>, most: u32) -> Option<WholeCell<'a>> {
    let kind = plain_kind(of)?;
    match event {
        Event::Leaf {
            level: 0,
            scalar,
            ..
        } => scalar_cell(scalar, kind, most),
        Event::Null { level: 0, .. } => Some(WholeCell::Null),
        Event::Empty { level: 0, .. } => Some(WholeCell::Of(Content::Lent(&[]))),
        _ => None,
    }
}

/// The cell of this kind that holds this scalar. None where the scalar is of another kind, its content none of that kind, or longer than `most`.
#[inline(always)]
pub fn scalar_cell<'a>(scalar: &Scalar<'a>, kind: Kind, most: u32) -> Option<WholeCell<'a>> {
    let content = content_as(scalar, kind)?;
    if content_len(content) > most as usize {
        return None;
    }
    Some(WholeCell::Of(content))
}

/// How many bytes a content has.
#[inline(always)]
fn content_len(content: Content<'_>) -> usize {
    match content {
        Content::One(_) => 1,
        Content::Two(_) => 2,
        Content::Four(_) => 4,
        Content::Eight(_) => 8,
        Content::Sixteen(_) => 16,
        Content::Lent(bytes) => bytes.len(),
        Content::Decimal(_, unscaled) => 4 + unscaled.len(),
    }
}

impl<'a> WholeCell<'a> {
    /// How many bytes it has.
    #[inline(always)]
    pub(crate) fn size(self) -> usize {
        match self {
            WholeCell::Null => 4,
            WholeCell::Of(content) => 4 + content_len(content),
        }
    }

    /// Puts its bytes at the front of a room.
    #[inline(always)]
    pub(crate) fn put(self, room: &mut [u8]) {
        match self {
            WholeCell::Null => put_front(room, &[0xFF; 4]),
            WholeCell::Of(content) => match content {
                Content::One(bytes) => put_content(room, &bytes),
                Content::Two(bytes) => put_content(room, &bytes),
                Content::Four(bytes) => put_content(room, &bytes),
                Content::Eight(bytes) => put_content(room, &bytes),
                Content::Sixteen(bytes) => put_content(room, &bytes),
                Content::Lent(bytes) => put_content(room, bytes),
                Content::Decimal(scale, unscaled) => put_decimal(room, scale, unscaled),
            },
        }
    }
}

/// Puts bytes at the front of a room.
#[inline(always)]
fn put_front(room: &mut [u8], bytes: &[u8]) {
    room[..bytes.len()].copy_from_slice(bytes);
}

/// Puts bytes at the front of a room, and others after them.
#[inline(always)]
fn put_both(room: &mut [u8], first: &[u8], others: &[u8]) {
    room[first.len()..first.len() + others.len()].copy_from_slice(others);
    put_front(room, first);
}

/// Puts a content after its length at the front of a room.
#[inline(always)]
fn put_content(room: &mut [u8], content: &[u8]) {
    put_both(room, &(content.len() as u32).to_be_bytes(), content);
}

/// The same of the content of a decimal.
fn put_decimal(room: &mut [u8], scale: [u8; 4], unscaled: &[u8]) {
    let [a, b, c, d] = ((4 + unscaled.len()) as u32).to_be_bytes();
    let [e, f, g, h] = scale;
    put_both(room, &[a, b, c, d, e, f, g, h], unscaled);
}
