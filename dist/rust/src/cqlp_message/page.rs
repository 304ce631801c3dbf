// Written by dist/erase from crates/cqlp_message/src/page.rt.
//! Pages whose cells are written one by one, after all else of their frame.

use crate::cqlp_message::frame::Frame;
use crate::cqlp_message::message::Message;
use crate::cqlp_message::response::{Metadata, Spec};
use crate::cqlp_message::unfit::Unfit;
use crate::cqlp_note::Header;
use crate::cqlp_value::{Value, fitting_size};

impl Frame {
    /// How many bytes it has, with its header and cells of this many bytes after its parts; or why it is no page that can be
    /// written with them.
    ///
    /// # Errors
    ///
    /// The first reason, as [`Frame::page_unfit`] gives it.
    pub fn page_measure(&self, cells_len: u32) -> Result<u32, Unfit> {
        let tally = self.frame_tally()?;
        if !self.message.is_bare() {
            return Err(Unfit::RowShape);
        }
        let body = tally.size.saturating_add(u64::from(cells_len));
        if body > u64::from(Header::LONGEST_BODY) {
            return Err(Unfit::BodyTooLong);
        }
        Ok(body as u32 + 9)
    }

    /// Why it is no page that can be written with cells of this many bytes after its parts, or None where it is one.
    ///
    /// In this order: [`Unfit::Direction`], [`Unfit::Parts`], [`Unfit::TooManyItems`] and [`Unfit::TextTooLong`] as [`unfit`](Self::unfit)
    /// has them; [`Unfit::RowShape`] where it is no page or holds cells; [`Unfit::BodyTooLong`] where its body and the cells together
    /// pass 268,435,456 bytes. Whether some cells have just this many bytes is for the caller to know.
    #[must_use]
    pub fn page_unfit(&self, cells_len: u32) -> Option<Unfit> {
        match self.page_measure(cells_len) {
            Ok(_) => None,
            Err(why) => Some(why),
        }
    }

    /// How many bytes it has, with its header and cells of this many bytes after its parts.
    pub(crate) fn page_len(&self, cells_len: u32) -> u32 {
        match self.page_measure(cells_len) {
            Ok(len) => len,
            Err(_) => unreachable!(),
        }
    }

    /// The columns of its page; none where they are not described, and where it is no page.
    #[must_use]
    pub fn specs(&self) -> &[Spec] {
        match &self.message {
            Message::Rows(page) => match &page.meta.specs {
                Some(specs) => specs,
                None => &[],
            },
            _ => &[],
        }
    }

    /// How many columns the cells of its page are of; 0 where it is no page.
    #[must_use]
    pub fn columns(&self) -> u32 {
        match &self.message {
            Message::Rows(page) => page.meta.columns,
            _ => 0,
        }
    }

    /// How many cells its page is to have: rows times columns; 0 where it is no page.
    #[must_use]
    pub fn cells_wanted(&self) -> u64 {
        match &self.message {
            Message::Rows(page) => u64::from(page.rows) * u64::from(page.meta.columns),
            _ => 0,
        }
    }

    /// Whether a value is one of the type of this column of its page, the first of which is 0. Where no columns are described, it is
    /// Null, Empty or a Raw leaf. False past the last column, and where it is no page.
    #[must_use]
    pub fn fits_column(&self, column: usize, value: &Value) -> bool {
        self.column_size(column, value).is_some()
    }

    /// How many bytes spell a value of the type of this column of its page, as [`fitting_size`] says it; None where
    /// [`fits_column`](Self::fits_column) is false.
    #[must_use]
    #[inline]
    pub fn column_size(&self, column: usize, value: &Value) -> Option<u64> {
        match &self.message {
            Message::Rows(page) => page.meta.column_size(column, value),
            _ => None,
        }
    }
}

impl Message {
    /// Whether it is a page that holds no cells.
    fn is_bare(&self) -> bool {
        match self {
            Message::Rows(page) => page.cells.is_empty(),
            _ => false,
        }
    }
}

impl Metadata {
    /// How many bytes spell a value of the type of this column, or None where it is none.
    #[inline]
    fn column_size(&self, column: usize, value: &Value) -> Option<u64> {
        match &self.specs {
            Some(specs) => spec_size(specs, column, value),
            None => {
                if column < self.columns as usize {
                    fitting_size(value, None)
                } else {
                    None
                }
            }
        }
    }
}

/// The same of the type that is described of this column.
#[inline]
fn spec_size(specs: &[Spec], column: usize, value: &Value) -> Option<u64> {
    match specs.get(column) {
        Some(spec) => fitting_size(value, Some(&spec.tree)),
        None => None,
    }
}
