// Written by dist/erase from crates/cqlp_compose/src/place.rt.
//! Where a page is whose cells come some at a time.

use crate::cqlp_message::{Frame, Unfit};

/// How many cells of a page have come, row after row, and how many bytes of cells are still to come.
///
/// It is a copy of two numbers, and knows nothing of its page: each call is given both. So whoever holds a page holds the frame without its
/// cells, and this.
#[derive(Clone, Copy, Debug, PartialEq, Eq)]
pub struct PageProgress {
    pub(crate) cells: u64,
    pub(crate) free: u32,
}

impl PageProgress {
    /// Before the first cell of a page, whose cells are to have `cells_len` bytes, as [`event_size`](crate::cqlp_compose::event_size) counts those of
    /// each event.
    ///
    /// # Errors
    ///
    /// What [`Frame::page_unfit`] says, where the frame is no page that can be written with cells of as many bytes.
    pub fn start(frame: &Frame, cells_len: u32) -> Result<PageProgress, Unfit> {
        match frame.page_unfit(cells_len) {
            Some(why) => Err(why),
            None => Ok(PageProgress {
                cells: 0,
                free: cells_len,
            }),
        }
    }

    /// How many cells have come.
    #[must_use]
    pub fn cells(&self) -> u64 {
        self.cells
    }

    /// How many bytes of cells are still to come.
    #[must_use]
    pub fn free(&self) -> u32 {
        self.free
    }

    /// Whether all cells of this page have come, and all bytes that they were to have.
    #[must_use]
    pub fn is_done(&self, frame: &Frame) -> bool {
        self.cells == frame.cells_wanted() && self.free == 0
    }
}
