// Written by dist/erase from crates/cqlp_build/src/pages.rt.
//! Pages of rows. Section 4.2.5.2 of `native_protocol_v4.spec`.

use crate::kit_std::prelude::{KitVec, Vec};
use crate::cqlp_build::held::{Fault, FrameEvents};
use crate::cqlp_build_cells::{CellError, Step, ends};
use crate::cqlp_kind::Kind;
use crate::cqlp_message::{Metadata, Rows};
use crate::cqlp_note::Field;
use crate::cqlp_type::TypeTree;
use crate::cqlp_value::Value;

impl FrameEvents {
    /// Takes a page.
    pub fn page(&mut self) -> Rows {
        let meta = self.metadata();
        let rows = self.count(Field::Rows);
        let cells = self.cells(rows, &meta);
        Rows { meta, rows, cells }
    }

    /// Takes the cells of this many rows, and keeps how many bytes they have, where that was counted.
    fn cells(&mut self, rows: u32, meta: &Metadata) -> Vec<Value> {
        let (cells, size) = self.sized_cells(rows, meta);
        self.cells_size = size;
        cells
    }

    /// Takes the cells of this many rows, and answers how many bytes they have, where that was counted.
    fn sized_cells(&mut self, rows: u32, meta: &Metadata) -> (Vec<Value>, Option<u64>) {
        if self.fault.is_some() {
            return (self.rows(rows, meta), None);
        }
        match self.items.take_page(rows, meta) {
            Some((cells, size)) => (cells, Some(size)),
            None => (self.rows(rows, meta), None),
        }
    }

    /// Takes the cells of this many rows, one row after the other.
    fn rows(&mut self, rows: u32, meta: &Metadata) -> Vec<Value> {
        let mut cells = Vec::new();
        if self.fault.is_some() {
            return cells;
        }
        if meta.columns == 0 {
            return cells;
        }
        for row in 0..rows {
            self.row(row, meta, &mut cells);
            if self.fault.is_some() {
                return cells;
            }
        }
        cells
    }

    /// Takes the cells of a row, and puts them behind those that there are. Nothing was refused yet.
    fn row(&mut self, row: u32, meta: &Metadata, cells: &mut Vec<Value>) {
        for column in 0..meta.columns {
            let cell = self.cell_of(row, column, meta);
            if self.fault.is_some() {
                return;
            }
            if cells.kit_push(cell).is_err() {
                self.refuse(Fault::NoMemory);
                return;
            }
        }
    }

    /// Takes the cell of a row and a column, which is as it is where no columns are described.
    fn cell_of(&mut self, row: u32, column: u32, meta: &Metadata) -> Value {
        let Some(specs) = &meta.specs else {
            return self.cell(row, column, &TypeTree::Plain(Kind::Raw));
        };
        match specs.get(column as usize) {
            Some(spec) => self.cell(row, column, &spec.tree),
            None => {
                self.refuse(Fault::NoFrame);
                Value::Null
            }
        }
    }

    /// Takes the cell of a row and a column, which is of this type.
    fn cell(&mut self, row: u32, column: u32, tree: &TypeTree) -> Value {
        if !self.gather(row, column) {
            self.take_front(tree);
            self.refuse(Fault::NoFrame);
            return Value::Null;
        }
        match self.cell.whole(tree) {
            Ok(value) => value,
            Err(why) => {
                self.refuse(fault(why));
                Value::Null
            }
        }
    }

    /// Takes the events of the cell of a row and a column, up to that after which nothing comes of it, and says whether that came.
    fn gather(&mut self, row: u32, column: u32) -> bool {
        self.cell.clear();
        while let Some((level, step)) = self.next_step(row, column) {
            let ended = ends(level, &step);
            if self.cell.kit_push(level, step).is_err() {
                self.refuse(Fault::NoMemory);
                return false;
            }
            if ended {
                return true;
            }
        }
        false
    }

    /// Takes of a cell that did not come whole the events that are the first ones of a value of this type, and the one after them.
    fn take_front(&mut self, tree: &TypeTree) {
        if self.fault.is_some() {
            return;
        }
        // No value is around as many, so it is the first event of none, and is taken where all others were those of one.
        if self.cell.kit_push(u32::MAX, Step::Null).is_err() {
            self.refuse(Fault::NoMemory);
            return;
        }
        if let Err(CellError::NoMemory) = self.cell.whole(tree) {
            self.refuse(Fault::NoMemory);
        }
    }
}

/// Why nothing more is taken, where there is no value.
fn fault(why: CellError) -> Fault {
    match why {
        CellError::NoMemory => Fault::NoMemory,
        _ => Fault::NoFrame,
    }
}
