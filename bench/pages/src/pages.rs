//! The pages of bench/pages.py.

use cqlp::frame::{Atom, Frame, Message, Metadata, Rows, Spec, TypeTree, Value};
use cqlp::memory::{AllocError, try_box};
use cqlp::Kind;

/// What a column holds.
#[derive(Clone, Copy)]
pub enum Column {
    Int,
    Bigint,
    /// 16 digits.
    Varchar,
    Boolean,
    /// Eight ints.
    List,
    /// Three texts, and an int for each.
    Map,
    /// A MiB.
    Blob,
}

/// The pages: their names and columns.
const PAGES: [(&str, &[Column]); 4] = [
    ("rows", &[Column::Int, Column::Bigint, Column::Varchar, Column::Boolean]),
    ("collections", &[Column::List, Column::Map]),
    ("columns", &[Column::Int; 200]),
    ("blobs", &[Column::Blob]),
];

/// The columns of the page of this name.
pub fn columns_of(name: &str) -> Option<&'static [Column]> {
    PAGES.into_iter().find(|(known, _)| *known == name).map(|(_, columns)| columns)
}

/// A page with these columns, which are all of the table `shop.orders`, and these cells.
pub fn page(columns: &[Column], rows: u32, cells: Vec<Value>) -> Result<Frame, AllocError> {
    let specs: Vec<Spec> = columns.iter().enumerate().map(|(place, column)| spec(*column, place)).collect::<Result<_, _>>()?;
    let meta = Metadata {
        flags: 1,
        columns: specs.len() as u32,
        paging: None,
        table: Some(("shop".to_string().into(), "orders".to_string().into())),
        specs: Some(specs.into()),
    };
    Ok(Frame::plain(0, Message::Rows(Rows { meta, rows, cells: cells.into() })))
}

fn spec(column: Column, place: usize) -> Result<Spec, AllocError> {
    Ok(Spec { table: None, name: format!("column{place}").into(), tree: tree(column)? })
}

fn tree(column: Column) -> Result<TypeTree, AllocError> {
    let plain = |kind| Ok::<_, AllocError>(try_box(TypeTree::Plain(kind))?);
    Ok(match column {
        Column::Int => TypeTree::Plain(Kind::Int),
        Column::Bigint => TypeTree::Plain(Kind::Bigint),
        Column::Varchar => TypeTree::Plain(Kind::Varchar),
        Column::Boolean => TypeTree::Plain(Kind::Boolean),
        Column::Blob => TypeTree::Plain(Kind::Blob),
        Column::List => TypeTree::List(plain(Kind::Int)?),
        Column::Map => TypeTree::Map(plain(Kind::Varchar)?, plain(Kind::Int)?),
    })
}

/// The cells of this many rows, in memory for just these.
pub fn cells(columns: &[Column], rows: u32) -> Vec<Value> {
    let mut cells = Vec::with_capacity(rows as usize * columns.len());
    for row in 0..rows {
        cells.extend((row..).zip(columns).map(|(number, column)| cell(*column, row, number)));
    }
    cells
}

/// A cell of this row. An int is this number.
fn cell(column: Column, row: u32, number: u32) -> Value {
    match column {
        Column::Int => int(number),
        Column::Bigint => Value::Leaf(Atom::Bigint(i64::from(row) * 1_000_003)),
        Column::Varchar => letters(row),
        Column::Boolean => Value::Leaf(Atom::Boolean(row % 2 == 1)),
        Column::List => Value::List((row..row + 8).map(int).collect::<Vec<_>>().into()),
        Column::Map => Value::Map((0..3).map(|k| (letters(row + k), int(k))).collect::<Vec<_>>().into()),
        Column::Blob => Value::Leaf(Atom::Blob((0..=255u8).cycle().take(1 << 20).collect::<Vec<_>>().into())),
    }
}

fn int(number: u32) -> Value {
    Value::Leaf(Atom::Int(number as i32))
}

/// The number in 16 digits.
fn letters(number: u32) -> Value {
    Value::Leaf(Atom::Varchar(format!("{number:016}").into()))
}
