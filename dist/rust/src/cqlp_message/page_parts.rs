// Written by dist/erase from crates/cqlp_message/src/page_parts.rt.
//! The parts of pages.

use crate::cqlp_message::part::{PartRef, TakesParts};
use crate::cqlp_message::response::{Metadata, Rows, Spec};
use crate::cqlp_message::walk::HasParts;
use crate::cqlp_note::Field;
use crate::cqlp_value::Value;

impl HasParts for Rows {
    fn walk<V: TakesParts>(&self, visitor: &mut V) {
        self.meta.walk(visitor);
        visitor.take(PartRef::Count32(Field::Rows, self.rows as usize));
        walk_rows(&self.meta, self.rows, &self.cells, visitor);
    }
}

/// Hands over the cells of this many rows.
fn walk_rows<V: TakesParts>(meta: &Metadata, rows: u32, cells: &[Value], visitor: &mut V) {
    let columns = meta.columns_described();
    let mut rest = cells;
    for row in 0..rows {
        if columns == 0 || rest.is_empty() {
            return;
        }
        walk_row(meta, row, rest, visitor);
        let (_, others) = rest.split_at(columns.min(rest.len()));
        rest = others;
    }
}

/// Hands over the cells of a row, the first of these.
fn walk_row<V: TakesParts>(meta: &Metadata, row: u32, cells: &[Value], visitor: &mut V) {
    match &meta.specs {
        Some(specs) => walk_typed(row, specs, cells, visitor),
        None => walk_raw(row, meta.columns, cells, visitor),
    }
}

/// Hands over a cell of each of these columns.
fn walk_typed<V: TakesParts>(row: u32, specs: &[Spec], cells: &[Value], visitor: &mut V) {
    let mut rest = specs;
    for (column, value) in cells.iter().enumerate() {
        let Some((spec, others)) = rest.split_first() else {
            return;
        };
        visitor.take(PartRef::Cell {
            row,
            column,
            tree: Some(&spec.tree),
            value,
        });
        rest = others;
    }
}

/// Hands over a cell of each of this many columns, whose types are not described.
fn walk_raw<V: TakesParts>(row: u32, columns: u32, cells: &[Value], visitor: &mut V) {
    for (column, value) in cells.iter().enumerate() {
        if column >= columns as usize {
            return;
        }
        visitor.take(PartRef::Cell {
            row,
            column,
            tree: None,
            value,
        });
    }
}

impl Metadata {
    /// How many columns the cells are of: those that are described, or as many as are said to be there.
    fn columns_described(&self) -> usize {
        match &self.specs {
            Some(specs) => specs.len(),
            None => self.columns as usize,
        }
    }
}
