//! The check of a value with items that was not read to its end: it is refused where a decoder refuses it.

use crate::cqlp_kind::{Kind, Node};
use crate::cqlp_note::{Limits, Reason};
use crate::cqlp_read_value::{CellContent, read_cell};

/// Why a value is not taken.
pub(crate) enum Fault {
    /// A decoder refuses it, at this offset in its bytes.
    Refused { at: usize, why: Reason },
    /// It has more values in it than are allowed.
    TooLarge,
}

/// The check of a value.
pub(crate) struct Walk<'s> {
    pub(crate) limits: &'s Limits,
    /// The types of the page's columns, each before its inner ones.
    pub(crate) types: &'s [Node],
    /// How many more values may be in it.
    pub(crate) room: u32,
}

impl Walk<'_> {
    /// Takes the value of the type at this place at the front of these bytes, which begin at an offset, and answers how many bytes it has.
    fn value(&mut self, place: usize, bytes: &[u8], at: usize) -> Result<usize, Fault> {
        let kind = self.types.get(place).map_or(Kind::Raw, |node| node.kind);
        let cell = read_cell(self.limits, kind, bytes).map_err(|why| Fault::Refused { at, why })?;
        match cell.content {
            CellContent::Items(content) => self.items(place, content, at)?,
            _ => self.count()?,
        }
        Ok(cell.used)
    }

    /// Takes the content of a value with items, which begins at an offset with its length. How deep it calls itself is bounded by the type.
    #[cold]
    #[inline(never)]
    pub(crate) fn items(&mut self, place: usize, content: &[u8], at: usize) -> Result<(), Fault> {
        let Some(&node) = self.types.get(place) else { return Ok(()) };
        let used = match node.kind {
            Kind::Tuple | Kind::Udt => self.fields(node, place + 1, content, at + 4)?,
            kind => self.counted(kind, place + 1, content, at + 4)?,
        };
        if used < content.len() {
            return Err(Fault::Refused { at: at + 4 + used, why: Reason::ExtraInValue });
        }
        Ok(())
    }

    /// Takes the fields of a tuple or a user-defined value, as many as there are bytes for.
    fn fields(&mut self, node: Node, mut inner: usize, content: &[u8], at: usize) -> Result<usize, Fault> {
        self.count()?;
        let mut used = 0;
        for _ in 0..node.arity {
            if used == content.len() {
                break;
            }
            used += self.value(inner, &content[used..], at + used)?;
            inner = self.after(inner);
        }
        Ok(used)
    }

    /// Takes the items of a list or a set, or the keys and values of a map, after their count.
    fn counted(&mut self, kind: Kind, inner: usize, content: &[u8], at: usize) -> Result<usize, Fault> {
        let front = content.first_chunk().ok_or(Fault::Refused { at, why: Reason::Overrun })?;
        let count = u32::try_from(i32::from_be_bytes(*front)).map_err(|_| Fault::Refused { at, why: Reason::BadCount })?;
        self.count()?;
        let mut used = 4;
        for _ in 0..count {
            used += self.value(inner, &content[used..], at + used)?;
            if kind == Kind::Map {
                used += self.value(self.after(inner), &content[used..], at + used)?;
            }
        }
        Ok(used)
    }

    /// The place after a type and its inner ones.
    fn after(&self, place: usize) -> usize {
        place + self.types.get(place).map_or(1, |node| node.span as usize)
    }

    /// Counts a value.
    fn count(&mut self) -> Result<(), Fault> {
        self.room = self.room.checked_sub(1).ok_or(Fault::TooLarge)?;
        Ok(())
    }
}
