// Written by dist/erase from crates/cqlp_encode/src/tally.rt.
//! The cells of a page, counted.

use crate::cqlp_message::{Frame, Unfit};
use crate::cqlp_value::{Value, value_size};

/// Cells of a page so far.
pub struct Tally<'a> {
    frame: &'a Frame,
    /// How many they are, up to as many as the page wants.
    count: u64,
    /// How many bytes they have, up to 2^64 - 1.
    size: u64,
    /// Whether there are more than the page wants.
    is_past: bool,
    /// Whether each that the page wants is one of its column's type.
    is_fit: bool,
}

impl<'a> Tally<'a> {
    /// Of no cells of this page.
    pub fn new(frame: &'a Frame) -> Tally<'a> {
        Tally {
            frame,
            count: 0,
            size: 0,
            is_past: false,
            is_fit: true,
        }
    }

    /// Counts the next cell.
    pub fn add(&mut self, cell: &Value) {
        self.size = self.size.saturating_add(value_size(cell));
        if self.count == self.frame.cells_wanted() {
            self.is_past = true;
            return;
        }
        let fits = self.frame.fits_column(self.column(), cell);
        self.is_fit = self.is_fit && fits;
        self.count = self.count.saturating_add(1);
    }

    /// The column of the next cell, the first of which is 0; where the page has any.
    fn column(&self) -> usize {
        match self.count.checked_rem(u64::from(self.frame.columns())) {
            Some(column) => column as usize,
            None => 0,
        }
    }

    /// How many bytes the cells have, or why the page is not written with them.
    pub fn measure(&self) -> Result<u32, Unfit> {
        let len = self.size.min(u64::from(u32::MAX)) as u32;
        if let Some(why) = self.frame.page_unfit(len) {
            return Err(why);
        }
        if self.is_past || self.count != self.frame.cells_wanted() {
            return Err(Unfit::RowShape);
        }
        if !self.is_fit {
            return Err(Unfit::CellType);
        }
        Ok(len)
    }
}
