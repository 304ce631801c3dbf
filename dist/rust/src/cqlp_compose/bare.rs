// Written by dist/erase from crates/cqlp_compose/src/bare.rt.
//! Pages that have no cells yet, and cells of one event.

use crate::kit_std::prelude::{Vec};
use crate::cqlp_compose::column::described;
use crate::cqlp_compose::composer::Composer;
use crate::cqlp_compose::error::{BeginPageError, KindsError};
use crate::cqlp_compose::kinds::{kind_in, kinds_of};
use crate::cqlp_compose::page::{BegunPage, bare_page, begun, said_len};
use crate::cqlp_compose::put::is_at;
use crate::cqlp_compose::scalar::{Content, scalar_content};
use crate::cqlp_compose::single::{WholeCell, scalar_cell};
use crate::cqlp_grammar::Event;
use crate::cqlp_kind::{Kind, Scalar};
use crate::cqlp_message::Frame;
use crate::cqlp_note::Header;

/// A page with its header, its metadata and the count of its rows, and without cells. Section 4.2.5.2 of `native_protocol_v4.spec`.
///
/// [`OpenPage::begin`](crate::cqlp_compose::OpenPage::begin) makes one and begins it at once. A caller that has all cells at hand looks at them in between: of
/// which kind each is to be, and how many bytes they have in all.
pub struct BarePage {
    frame: Frame,
}

impl BarePage {
    /// The page of as many rows whose other events came to a composer.
    ///
    /// # Errors
    ///
    /// [`BeginPageError::Build`] and [`BeginPageError::NoPage`], as [`OpenPage::begin`](crate::cqlp_compose::OpenPage::begin) has them.
    pub fn new(composer: Composer, rows: u32) -> Result<BarePage, BeginPageError> {
        match bare_page(composer, rows) {
            Ok(frame) => Ok(BarePage { frame }),
            Err(why) => Err(why),
        }
    }

    /// Begins the page, whose cells are to have `cells_len` bytes.
    ///
    /// # Errors
    ///
    /// [`BeginPageError::Unfit`] with what [`Frame::page_unfit`] says of a page of as many rows and bytes. Memory may be refused.
    pub fn begin(self, cells_len: u64) -> Result<BegunPage, BeginPageError> {
        let BarePage { frame } = self;
        begun(frame, said_len(cells_len))
    }

    /// How many cells it is to have.
    #[must_use]
    pub fn cells_wanted(&self) -> u64 {
        self.frame.cells_wanted()
    }

    /// The kinds of the columns that it describes, in their order, for [`BarePage::kind_at`]: a byte for each.
    ///
    /// # Errors
    ///
    /// [`KindsError::Nested`] where values of a column have items. [`KindsError::NoMemory`] where memory was refused.
    pub fn kinds(&self) -> Result<Vec<Kind>, KindsError> {
        kinds_of(described(&self.frame))
    }

    /// The kind of the cell before which `cells` others come, if this is its row and its column, where `kinds` are those of its columns; else None.
    #[must_use]
    #[inline(always)]
    pub fn kind_at(&self, kinds: &[Kind], cells: u64, row: u32, column: u32) -> Option<Kind> {
        if cells >= self.frame.cells_wanted() {
            return None;
        }
        if !is_at(cells, self.frame.columns(), row, column) {
            return None;
        }
        Some(kind_in(kinds, column as usize))
    }
}

/// How many bytes the cell of this kind has that holds this scalar: 5 to 268,435,460. None where the scalar is of another kind, is no value of it,
/// or is longer than a body.
#[must_use]
#[inline(always)]
pub fn scalar_size(scalar: &Scalar<'_>, kind: Kind) -> Option<u64> {
    match scalar_cell(scalar, kind, Header::LONGEST_BODY) {
        Some(cell) => Some(cell.size() as u64),
        None => None,
    }
}

/// Puts the cell that has this one event, a leaf, a null or an empty value, at the front of a room, and answers how many bytes it has. It puts nothing of
/// another event.
#[inline(always)]
pub(crate) fn put_event(event: &Event<'_>, room: &mut [u8]) -> usize {
    match event {
        Event::Leaf { scalar, .. } => put_cell(WholeCell::Of(scalar_content(scalar)), room),
        Event::Null { .. } => put_cell(WholeCell::Null, room),
        Event::Empty { .. } => put_cell(WholeCell::Of(Content::Lent(&[])), room),
        _ => 0,
    }
}

/// The same of a cell.
#[inline(always)]
fn put_cell(cell: WholeCell<'_>, room: &mut [u8]) -> usize {
    let size = cell.size();
    cell.put(room);
    size
}
