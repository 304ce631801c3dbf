// Written by dist/erase from crates/cqlp_build/src/frame_len.rt.
//! How many bytes a frame has that was built, without another look at the cells of a page whose bytes were counted as they came.

use crate::kit_std::prelude::{Vec};
use crate::cqlp_message::{Frame, Message};
use crate::cqlp_note::Header;
use crate::cqlp_value::Value;
use core::mem;

/// How many bytes a frame has, if some bytes spell it. Of a page all cells are there, each a value of its column's type, and they have so many
/// bytes, where that is known.
pub(crate) fn frame_len(frame: &mut Frame, cells_size: Option<u64>) -> Option<u32> {
    match cells_size {
        Some(size) if is_short(size) => page_len(frame, size as u32),
        _ => measure(frame),
    }
}

/// Whether a body may have this many bytes.
fn is_short(size: u64) -> bool {
    size <= u64::from(Header::LONGEST_BODY)
}

/// How many bytes a frame has, if some bytes spell it.
fn measure(frame: &Frame) -> Option<u32> {
    match frame.measure() {
        Ok(len) => Some(len),
        Err(_) => None,
    }
}

/// How many bytes a frame has, if some bytes spell it. Of a page all cells are there, each a value of its column's type, and they have this many
/// bytes.
fn page_len(frame: &mut Frame, cells_len: u32) -> Option<u32> {
    let Some(cells) = take_cells(&mut frame.message) else {
        return measure(frame);
    };
    let len = measure_page(frame, cells_len);
    put_back(&mut frame.message, cells);
    len
}

/// How many bytes a frame has with cells of so many bytes after it, if it is a page without cells that can be begun with them.
fn measure_page(frame: &Frame, cells_len: u32) -> Option<u32> {
    match frame.page_measure(cells_len) {
        Ok(len) => Some(len),
        Err(_) => None,
    }
}

/// Takes the cells out of a page; of another message it takes nothing.
fn take_cells(message: &mut Message) -> Option<Vec<Value>> {
    match message {
        Message::Rows(page) => Some(mem::replace(&mut page.cells, Vec::new())),
        _ => None,
    }
}

/// Gives a page these cells.
fn put_back(message: &mut Message, cells: Vec<Value>) {
    if let Message::Rows(page) = message {
        page.cells = cells;
    }
}
