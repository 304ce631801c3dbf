//! The items of a value, held in steps or read where they lie.

use core::cell::Cell;

use crate::cqlp_kind::{Kind, Node};
use crate::cqlp_note::Limits;
use crate::cqlp_read_value::{CellContent, read_cell};
use crate::rows::cell::{LentCell, Step, content};
use crate::rows::cells::{NotRead, WhyNot, front, read_known};
use crate::rows::error::Mismatch;
use crate::rows::from_cell::FromCell;

/// The items of a value, an iterator over them: those of a list or a set, the keys and values of a map by turns, the fields of a
/// tuple or a user-defined value.
///
/// Those of a page in memory are read when they are asked for. Before an item that a decoder refuses the items end, and so does the page, by
/// that refusal: whatever was read of the value is dropped then. What nothing reads is checked too, once the value is passed.
///
/// ```
/// use cqlp::rows::{FromCell, LentCell, Mismatch};
///
/// /// How long the texts of a list are together.
/// struct Length(usize);
///
/// impl<'a> FromCell<'a> for Length {
///     fn from_cell(cell: LentCell<'a, '_>) -> Result<Self, Mismatch> {
///         let LentCell::Items(items) = cell else { return Err(cell.unlike("Length")) };
///         let mut length = 0;
///         items.read_each(|text: &str| length += text.len())?;
///         Ok(Length(length))
///     }
/// }
/// ```
#[derive(Clone, Copy, Debug)]
pub struct LentItems<'a, 's> {
    kind: Kind,
    /// The number of the next item's kind in the low byte, and in the high one that of the item after it, or `FIELDS` in a tuple or a
    /// user-defined value.
    kinds: u16,
    count: u32,
    /// How many items are left; of a tuple or a user-defined value 0 where no bytes are.
    left: u32,
    /// The place of the first inner type of a list, a set or a map; of the next field's type of a tuple or a user-defined value.
    place: u32,
    /// The bytes from the next item on, to the end of the value; of items in steps the bytes in which their contents lie.
    rest: &'a [u8],
    /// The address from which on what is read of the value is not passed yet.
    begun: usize,
    source: Source<'s>,
}

/// Where the items are.
#[derive(Clone, Copy, Debug)]
enum Source<'s> {
    /// In steps.
    Held(&'s [Step]),
    /// In a page.
    Lying(&'s Checked<'s>),
}

const FIELDS: u16 = 0xff;

/// How far a cell is checked, of which items are read.
#[derive(Debug)]
pub(crate) struct Checked<'s> {
    pub(crate) limits: &'s Limits,
    /// The types of the page's columns, each before its inner ones.
    pub(crate) types: &'s [Node],
    /// The address up to which all bytes of the cell were read, and refused by nothing.
    pub(crate) up_to: Cell<usize>,
}

/// The address at which these bytes begin.
#[inline(always)]
pub(crate) fn address_of(bytes: &[u8]) -> usize {
    bytes.as_ptr() as usize
}

impl Checked<'_> {
    #[inline(always)]
    fn kind(&self, place: u32) -> Kind {
        self.types.get(place as usize).map_or(Kind::Raw, |node| node.kind)
    }

    /// The place after a type and its inner ones.
    #[inline]
    fn after(&self, place: u32) -> u32 {
        place + self.types.get(place as usize).map_or(1, |node| node.span)
    }

    /// What lies from one address up to another is read.
    #[inline(always)]
    fn pass(&self, from: usize, to: usize) {
        if self.up_to.get() == from {
            self.up_to.set(to);
        }
    }
}

impl<'a, 's> LentItems<'a, 's> {
    /// Items in steps.
    pub(crate) fn held(kind: Kind, count: u32, steps: &'s [Step], bytes: &'a [u8]) -> Self {
        let source = Source::Held(steps);
        LentItems { kind, kinds: 0, count, left: 0, place: 0, rest: bytes, begun: 0, source }
    }

    /// The items of a value of the type at this place, with this content. None where there is no count.
    #[inline]
    pub(crate) fn lying(of: &'s Checked<'s>, place: u32, content: &'a [u8]) -> Option<Self> {
        let kind = of.types.get(place as usize)?.kind;
        let (count, left, other, rest) = match kind {
            Kind::Tuple | Kind::Udt => {
                let arity = of.types.get(place as usize)?.arity.into();
                (arity, arity, FIELDS, content)
            }
            _ => {
                let (front, rest) = content.split_first_chunk()?;
                let count = u32::try_from(i32::from_be_bytes(*front)).ok()?;
                let (left, other) = if kind == Kind::Map { (count * 2, of.after(place + 1)) } else { (count, place + 1) };
                (count, left, of.kind(other) as u16, rest)
            }
        };
        let (kinds, begun, source) = (of.kind(place + 1) as u16 | other << 8, address_of(rest), Source::Lying(of));
        Some(LentItems { kind, kinds, count, left, place: place + 1, rest, begun, source })
    }

    /// What of a value in a page is read once its items are lent, which begins at this address: its length, and its count.
    #[inline(always)]
    pub(crate) fn pass_front(&self, of: &Checked<'_>, from: usize) {
        // The rest of a value without bytes begins where the next value does, which is not reached while items are wanting.
        if self.left == 0 || !self.rest.is_empty() {
            of.pass(from, self.begun);
        }
    }
}

impl LentItems<'_, '_> {
    /// The kind of the value.
    #[must_use]
    pub fn kind(&self) -> Kind {
        self.kind
    }

    /// How many items a list or a set has, how many pairs a map has, how many fields the type of a tuple has, of which a value
    /// may leave out the last.
    #[must_use]
    pub fn items(&self) -> u32 {
        self.count
    }

    /// How many items there may be at most, which is no more than came.
    #[must_use]
    pub(crate) fn room(&self) -> usize {
        let came = match self.source {
            Source::Held(steps) => steps.len(),
            Source::Lying(_) => self.rest.len() / 4,
        };
        came.min(self.count as usize)
    }
}

impl<'a> LentItems<'a, '_> {
    /// Hands the value of each item to a closure. Items of the kind from which the type is read the fastest take fewer instructions so than
    /// by the iterator.
    ///
    /// # Errors
    ///
    /// Why an item has no such value. The items before it were handed.
    #[inline]
    pub fn read_each<T: FromCell<'a>>(self, mut hand: impl FnMut(T)) -> Result<(), Mismatch> {
        match self.source {
            Source::Lying(of) if self.knows::<T, T>() => {
                let read = |bytes| {
                    let (value, rest) = read_known(of.limits, bytes)?;
                    hand(value);
                    Ok(rest)
                };
                self.read_scalars(of, 1, read)
            }
            _ => read_items(self, &mut hand),
        }
    }

    /// Hands each key of a map, or item with an even number, to a closure, and the item after it. As with
    /// [`read_each`](LentItems::read_each), items of the kinds from which the types are read the fastest take fewer instructions.
    ///
    /// # Errors
    ///
    /// Why an item has no such value. The pairs before it were handed.
    #[inline]
    pub fn read_pairs<K: FromCell<'a>, V: FromCell<'a>>(self, mut hand: impl FnMut(K, V)) -> Result<(), Mismatch> {
        match self.source {
            Source::Lying(of) if self.knows::<K, V>() => {
                let read = |bytes| {
                    let (key, rest) = read_known(of.limits, bytes)?;
                    let (value, rest) = read_known(of.limits, rest)?;
                    hand(key, value);
                    Ok(rest)
                };
                self.read_scalars(of, 2, read)
            }
            _ => read_items_by_two(self, &mut hand),
        }
    }
}

/// Hands the value of each item, one by one.
#[inline(never)]
fn read_items<'a, T: FromCell<'a>>(items: LentItems<'a, '_>, hand: &mut impl FnMut(T)) -> Result<(), Mismatch> {
    for item in items {
        hand(T::from_cell(item)?);
    }
    Ok(())
}

/// Hands the values of two items after one another.
#[inline(never)]
fn read_items_by_two<'a, K: FromCell<'a>, V: FromCell<'a>>(
    mut items: LentItems<'a, '_>,
    hand: &mut impl FnMut(K, V),
) -> Result<(), Mismatch> {
    while let (Some(key), Some(value)) = (items.next(), items.next()) {
        hand(K::from_cell(key)?, V::from_cell(value)?);
    }
    Ok(())
}

impl<'a, 's> Iterator for LentItems<'a, 's> {
    type Item = LentCell<'a, 's>;

    /// The next item; None also where a decoder refuses it. The common ones are read in the caller, and no other function is given a
    /// reference to the items, so that a loop has them in registers.
    #[inline(always)]
    fn next(&mut self) -> Option<LentCell<'a, 's>> {
        let of = match self.source {
            Source::Lying(of) => of,
            Source::Held(steps) => {
                let (cell, steps) = next_held(steps, self.rest)?;
                self.source = Source::Held(steps);
                return Some(cell);
            }
        };
        if self.left == 0 {
            return None;
        }
        if self.is_next(Kind::Int) {
            if let Some((cell, rest)) = front(of.limits, Kind::Int, self.rest) {
                self.go_on(of, rest);
                return Some(cell);
            }
        } else if self.is_next(Kind::Varchar) {
            if let Some((cell, rest)) = front(of.limits, Kind::Varchar, self.rest) {
                self.go_on(of, rest);
                return Some(cell);
            }
        }
        let Some((cell, rest)) = read_other(of, self.place_of_next(of), self.rest) else {
            self.left = 0;
            return None;
        };
        match &cell {
            LentCell::Items(inner) => self.go_around(of, inner, rest),
            _ => self.go_on(of, rest),
        }
        Some(cell)
    }
}

/// The next of the items in these steps, and the steps after it.
#[inline(never)]
fn next_held<'a, 's>(steps: &'s [Step], bytes: &'a [u8]) -> Option<(LentCell<'a, 's>, &'s [Step])> {
    let (&step, rest) = steps.split_first()?;
    let cell = match step {
        Step::Null => LentCell::Null,
        Step::Empty => LentCell::Empty,
        Step::Plain(scalar) => LentCell::Scalar(scalar),
        Step::Content { kind, start, len } => LentCell::Scalar(content(kind, bytes, start, len)),
        Step::Enter { kind, count, len } => {
            let (inner, after) = rest.split_at(rest.len().min(len as usize));
            return Some((LentCell::Items(LentItems::held(kind, count, inner, bytes)), after));
        }
    };
    Some((cell, rest))
}

/// The item of the type at this place at the front of these bytes, and the bytes after it; None where a decoder refuses it.
#[inline(never)]
fn read_other<'a, 's>(of: &'s Checked<'s>, place: u32, bytes: &'a [u8]) -> Option<(LentCell<'a, 's>, &'a [u8])> {
    let item = read_cell(of.limits, of.kind(place), bytes).ok()?;
    let cell = match item.content {
        CellContent::Null => LentCell::Null,
        CellContent::Empty => LentCell::Empty,
        CellContent::Scalar(scalar) => LentCell::Scalar(scalar),
        CellContent::Items(content) => LentCell::Items(LentItems::lying(of, place, content)?),
    };
    Some((cell, &bytes[item.used..]))
}

impl<'a> LentItems<'a, '_> {
    /// Whether the next item is of this kind.
    #[inline(always)]
    fn is_next(&self, kind: Kind) -> bool {
        self.kinds & 0xff == kind as u16
    }

    /// Whether these types are read the fastest from the next item and from the one after it, and so by turns.
    #[inline(always)]
    fn knows<K: FromCell<'a>, V: FromCell<'a>>(&self) -> bool {
        match (K::KIND, V::KIND) {
            (Some(key), Some(value)) => key.is_scalar() && value.is_scalar() && self.kinds == key as u16 | (value as u16) << 8,
            _ => false,
        }
    }

    /// The place of the next item's type.
    #[inline(always)]
    fn place_of_next(&self, of: &Checked<'_>) -> u32 {
        if self.kind == Kind::Map && self.left % 2 == 1 { of.after(self.place) } else { self.place }
    }

    /// Goes on after a scalar.
    #[inline(always)]
    fn go_on(&mut self, of: &Checked<'_>, rest: &'a [u8]) {
        self.advance(of, rest);
        if self.left == 0 {
            of.pass(self.begun, address_of(rest));
        }
    }

    /// Goes on after an item with items, which passes what is read of it.
    #[inline(always)]
    fn go_around(&mut self, of: &Checked<'_>, inner: &LentItems<'_, '_>, rest: &'a [u8]) {
        let from = address_of(self.rest);
        of.pass(self.begun, from);
        self.advance(of, rest);
        self.begun = address_of(rest);
        // Where an item after it is wanting, nothing in it is passed either.
        if self.left == 0 || !rest.is_empty() {
            inner.pass_front(of, from);
        }
    }

    /// Goes on after an item.
    #[inline(always)]
    fn advance(&mut self, of: &Checked<'_>, rest: &'a [u8]) {
        self.rest = rest;
        self.left -= 1;
        if self.kinds >> 8 == FIELDS {
            self.place = of.after(self.place);
            self.kinds = of.kind(self.place) as u16 | FIELDS << 8;
            // The last fields may be left out.
            self.left = if rest.is_empty() { 0 } else { self.left };
        } else {
            self.kinds = self.kinds.swap_bytes();
        }
    }

    /// Reads all scalars that are left, so many at a time.
    #[inline(always)]
    fn read_scalars(
        &self,
        of: &Checked<'_>,
        at_a_time: u32,
        mut read: impl FnMut(&'a [u8]) -> Result<&'a [u8], NotRead>,
    ) -> Result<(), Mismatch> {
        let mut rest = self.rest;
        for _ in 0..self.left / at_a_time {
            match read(rest) {
                Ok(later) => rest = later,
                Err(NotRead { why: WhyNot::Mismatch(why), .. }) => return Err(why),
                // The cell is not checked up to its end then, so it is refused once it is passed.
                Err(_) => return Ok(()),
            }
        }
        of.pass(self.begun, address_of(rest));
        Ok(())
    }
}
