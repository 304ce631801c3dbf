//! The columns of a page, as its events pass.

use alloc::string::String;
use alloc::vec::Vec;

use crate::cqlp_grammar::Event;
use crate::cqlp_kind::Kind;
use crate::cqlp_note::{Field, NoMemory};

/// A column of a page.
#[derive(Clone, Debug, PartialEq, Eq, Hash)]
#[non_exhaustive]
pub struct TrackedColumn {
    /// Its name.
    pub name: String,
    /// Its type, without parameters.
    pub kind: Kind,
}

/// Where a cell is in its page.
#[derive(Clone, Copy, Debug, PartialEq, Eq, Hash)]
pub struct CellPlace {
    /// Its row, counted from 0.
    pub row: u32,
    /// Its column, in the order of the metadata.
    pub column: u32,
}

/// Follows the events of frames that pass, and says of which column the bytes are that come next: so the cells of a column are altered as
/// they pass, whatever the size of a page, and all else goes on as it came. A step of [`Decoder::next`](crate::Decoder::next) says how
/// many bytes its event has; [`take`](PageTrack::take) is to be called after that, with the event, and
/// [`column`](PageTrack::column) before, also where a piece ends within a cell. Of a `Leave`, which names no cell,
/// [`place`](PageTrack::place) says after it which one it was of.
///
/// It holds the names of the columns of one page.
#[derive(Clone, Debug, Default, PartialEq, Eq)]
pub struct PageTrack {
    columns: Vec<TrackedColumn>,
    /// The name that came before its type.
    named: Option<String>,
    /// The column of the next cell, within rows.
    next: Option<usize>,
    /// The cell of the last event.
    place: Option<CellPlace>,
    /// Whether the page has cells and did not describe its columns.
    is_bare: bool,
}

impl PageTrack {
    /// The column whose cell the next bytes are of. None outside of cells, and in a page without metadata.
    #[must_use]
    pub fn column(&self) -> Option<&TrackedColumn> {
        self.columns.get(self.next?)
    }

    /// The cell that the last event was of. None where that was of no cell.
    #[must_use]
    pub fn place(&self) -> Option<CellPlace> {
        self.place
    }

    /// Whether the present page has rows, and no metadata that would say what its columns are. A proxy that has to know them takes the
    /// flag [`query_flag::SKIP_METADATA`](crate::query_flag::SKIP_METADATA) from the requests that pass.
    #[must_use]
    pub fn is_bare(&self) -> bool {
        self.is_bare
    }

    /// Takes the next event of the connection.
    ///
    /// # Errors
    ///
    /// Memory that is refused, for the names of columns.
    pub fn take(&mut self, event: &Event<'_>) -> Result<(), NoMemory> {
        self.place = match *event {
            Event::Leaf { row, column, .. }
            | Event::Null { row, column, .. }
            | Event::Empty { row, column, .. }
            | Event::Enter { row, column, .. }
            | Event::Part { row, column, .. } => Some(CellPlace { row, column }),
            Event::Leave { .. } => self.place,
            _ => None,
        };
        match *event {
            Event::Int { field: Field::MetaFlags, .. } => self.columns.clear(),
            Event::Text { field: Field::ColumnName, text } => {
                let mut name = String::new();
                name.try_reserve_exact(text.len()).map_err(|_| NoMemory)?;
                name.push_str(text);
                self.named = Some(name);
            }
            Event::TypeNode(kind) => {
                if let Some(name) = self.named.take() {
                    self.columns.try_reserve(1).map_err(|_| NoMemory)?;
                    self.columns.push(TrackedColumn { name, kind });
                }
            }
            Event::Count { field: Field::Rows, count } => {
                self.is_bare = count > 0 && self.columns.is_empty();
                self.next = Some(0);
            }
            Event::Leaf { level: 0, .. } | Event::Null { level: 0, .. } | Event::Empty { level: 0, .. } | Event::Leave { level: 0, .. } => {
                self.next = self.next.map(|column| (column + 1) % self.columns.len().max(1));
            }
            Event::End { .. } => (self.next, self.is_bare) = (None, false),
            _ => {}
        }
        Ok(())
    }
}
