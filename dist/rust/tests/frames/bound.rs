//! Values that are bound to a query, and cells of a page whose columns are not told.

use super::again::frame_again;
use super::sockets::Narrow;
use super::words::all_of;
use super::written::{LIMITS, digits_line, write};
use cqlp::frame::{
    Frame, Message, Metadata, OwnedBound, PageError, PageWriter, QueryParams, Rows, TypeTree, Value, bind_value, raw_value, read_value,
};

/// How many bytes of [`query`] come before the value that is bound.
const BEFORE_VALUE: usize = 18;

/// The bytes in a QUERY of the value that some words spell out, bound with the type before it, or why it is not bound. And whether the
/// decoder and `read_value` read it of them, and whether a page has them of its cell, whose column is not told: where the cell is made
/// before, and where the writer of the page makes it.
pub fn said(line: &str) -> String {
    let (of, value): (Option<TypeTree>, Value) = all_of(line, |words| (words.option(), words.read()));
    let query = match bind_value(&value, of.as_ref()) {
        Ok(bound) => query(bound),
        Err(error) => return format!("{line}: {error:?}\n"),
    };
    let (_, bytes) = write(&query);
    let own = &bytes[BEFORE_VALUE..];
    format!(
        "{line}: decoded {}, read {}, raw {}, by cell {}\n{}",
        frame_again(&query, &bytes) == "built again",
        read_value(&LIMITS, of.as_ref(), own).is_ok_and(|read| read == value),
        is_raw(&value, of.as_ref(), own),
        of.is_none_or(|tree| is_by_cell(&value, &tree, own)),
        digits_line(own),
    )
}

/// Whether these are the last bytes of a page with the cell that is made of the value.
fn is_raw(value: &Value, of: Option<&TypeTree>, own: &[u8]) -> bool {
    let raw = raw_value(value, of).unwrap();
    write(&page(vec![raw])).1.ends_with(own)
}

/// Whether these are the last bytes of a page whose writer is given the value.
fn is_by_cell(value: &Value, tree: &TypeTree, own: &[u8]) -> bool {
    let mut target = Narrow::new(usize::MAX);
    write_cell(&page(vec![]), own.len() as u32, value, tree, &mut target).is_ok() && target.text.ends_with(own)
}

/// Writes a value as the one cell of a page.
fn write_cell(page: &Frame, len: u32, value: &Value, tree: &TypeTree, target: &mut Narrow) -> Result<u32, PageError> {
    let mut writer = PageWriter::begin(page, len, target)?;
    writer.cell_as(value, tree, target)?;
    writer.finish()
}

/// A QUERY without text, with this one value.
fn query(bound: OwnedBound) -> Frame {
    let params = QueryParams {
        consistency: 1,
        flags: 0x01,
        values: Some(vec![(None, bound)]),
        page_size: None,
        paging: None,
        serial: None,
        timestamp: None,
    };
    Frame::plain(0, Message::Query { text: String::new(), params })
}

/// A page of one row and one column, which is not told.
fn page(cells: Vec<Value>) -> Frame {
    let meta = Metadata { flags: 4, columns: 1, paging: None, table: None, specs: None };
    Frame::plain(0, Message::Rows(Rows { meta, rows: 1, cells }))
}
