//! Writes a page of this many rows to standard output: cargo run --example write_page ROWS

use cqlp::{cells_size, Event, Field, Frame, Kind, Opcode, PageWriter, Place, Scalar, What};
use std::error::Error;
use std::io::Write;

/// What comes before the first cell.
fn head(rows: u32) -> [What<'static>; 11] {
    let header = Frame {
        response: true,
        flags: 0,
        stream: 3,
        opcode: Opcode::Result,
        length: 0,
    };
    [
        What::Frame(header),
        What::Int(Field::ResultKind, 2),
        What::Int(Field::MetaFlags, 1), // one table for all columns
        What::Count(Field::Columns, 2),
        What::Text(Field::Keyspace, "shop"),
        What::Text(Field::Table, "orders"),
        What::Text(Field::ColumnName, "id"),
        What::TypeNode(Kind::Int),
        What::Text(Field::ColumnName, "name"),
        What::TypeNode(Kind::Varchar),
        What::Count(Field::Rows, rows),
    ]
}

/// The cells of a row, of which the name of each third one is null.
fn cells(row: u32, name: &str) -> [Event<'_>; 2] {
    let place = |column| Place { row, column, level: 0 };
    let id = What::Leaf(place(0), Scalar::Int(row as i32));
    let name = if row % 3 == 2 {
        What::Null(place(1))
    } else {
        What::Leaf(place(1), Scalar::Varchar(name))
    };
    [id, name].map(|what| Event { at: 0, what })
}

fn main() -> Result<(), Box<dyn Error>> {
    let rows = std::env::args().nth(1).ok_or("say how many rows")?.parse()?;
    let name_of = |row| format!("order {row}");
    // the header counts the bytes of the cells, and is written first
    let mut size = 0;
    for row in 0..rows {
        size += cells_size(&cells(row, &name_of(row)))?;
    }
    let mut page = PageWriter::new(std::io::stdout().lock(), size);
    for what in head(rows) {
        page.take(&Event { at: 0, what })?;
    }
    for row in 0..rows {
        for event in &cells(row, &name_of(row)) {
            page.take(event)?;
        }
    }
    page.end()?.flush()?;
    Ok(())
}
