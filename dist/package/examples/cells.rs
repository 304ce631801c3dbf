//! A page of rows written whole and cell by cell, as by a server that never holds them all, and read back by a sink that prints rows; and a value
//! alone, written as the bytes of a cell or of a bound value, and read back.
#![forbid(unsafe_code)]

use cqlp::frame::{Frame, Message, Metadata, PageWriter, Rows, Spec, TypeTree, Value, encode, read_value, value_size, write_value};
use cqlp::{Decoder, Event, Kind, Limits, OfStd, Scalar, Sink, SinkFault, run};
use std::error::Error;
use std::io::{Write, stdout};

/// The cells of all rows, row after row: an id and a name.
fn cells() -> Vec<Value> {
    [(1, "tea"), (2, "salt")].into_iter().flat_map(|(id, name)| [Value::from(id), Value::from(name)]).collect()
}

/// A response with a page of two rows of the table `shop.item`, which has these cells.
fn page(cells: Vec<Value>) -> Frame {
    let columns = vec![Spec::new("id", Kind::Int), Spec::new("name", Kind::Varchar)];
    let meta = Metadata::of_table("shop", "item", columns);
    Frame::plain(7, Message::Rows(Rows { meta, rows: 2, cells }))
}

/// The bytes of the page, whose cells come one by one. The header says how long they are, so that is known before the first of them.
fn by_cell() -> Result<Vec<u8>, Box<dyn Error>> {
    let (frame, mut target) = (page(Vec::new()), OfStd::new(Vec::new()));
    let cells_len = cells().iter().map(value_size).sum::<u64>() as u32;
    let mut writer = PageWriter::begin(&frame, cells_len, &mut target)?;
    for cell in cells() {
        writer.cell(&cell, &mut target)?;
    }
    writer.finish()?;
    Ok(target.into_inner())
}

/// Prints the rows of pages with these two columns.
struct RowPrinter<'a>(&'a mut dyn Write);

impl Sink for RowPrinter<'_> {
    fn take(&mut self, _at: u64, event: &Event<'_>) -> Result<(), SinkFault> {
        match event {
            Event::Leaf { row, scalar: Scalar::Int(id), .. } => write!(self.0, "row {row}: {id}"),
            Event::Leaf { scalar: Scalar::Varchar(name), .. } => writeln!(self.0, " {name}"),
            _ => Ok(()),
        }
        .map_err(|_| SinkFault)
    }
}

/// Writes the page in both ways, and prints the rows that its bytes say and how they end.
pub(crate) fn show_page(out: &mut dyn Write) -> Result<(), Box<dyn Error>> {
    let mut whole = OfStd::new(Vec::new());
    encode(&page(cells()), &mut whole)?;
    let bytes = whole.into_inner();
    let mut decoder = Decoder::new(Limits::DEFAULT)?;
    let outcome = run(&mut decoder, &mut OfStd::new(&bytes[..]), &mut RowPrinter(out), u64::MAX);
    writeln!(out, "{outcome:?}")?;
    Ok(writeln!(out, "cell by cell the same bytes: {}", by_cell()? == bytes)?)
}

/// Writes the value `[1, null]` of the type `list<int>`, and reads it back.
pub(crate) fn show_value(out: &mut dyn Write) -> Result<(), Box<dyn Error>> {
    let tree = TypeTree::list(Kind::Int);
    let value = Value::List(vec![Value::from(1), Value::Null]);
    let mut target = OfStd::new(Vec::new());
    write_value(&value, Some(&tree), &mut target)?;
    let bytes = target.into_inner();
    let read = read_value(&Limits::DEFAULT, Some(&tree), &bytes)?;
    Ok(writeln!(out, "{} bytes, and the same value again: {}", bytes.len(), read == value)?)
}

#[allow(dead_code)]
fn main() -> Result<(), Box<dyn Error>> {
    let mut out = stdout().lock();
    show_page(&mut out)?;
    show_value(&mut out)
}
