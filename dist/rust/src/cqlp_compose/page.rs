// Written by dist/erase from crates/cqlp_compose/src/page.rt.
//! Pages that are begun.

use crate::kit_std::prelude::{Vec};
use crate::cqlp_compose::bare::BarePage;
use crate::cqlp_compose::composer::Composer;
use crate::cqlp_compose::error::{BeginPageError, HeadError, Unended};
use crate::cqlp_compose::head::page_head;
use crate::cqlp_compose::place::PageProgress;
use crate::cqlp_build::BuildError;
use crate::cqlp_grammar::Event;
use crate::cqlp_message::{Frame, Message};
use crate::cqlp_note::Field;

/// A page whose cells come in batches: its frame without cells, and where it is. Section 4.2.5.2 of `native_protocol_v4.spec`.
///
/// This is all that is held of a page of any size between two batches, and as much as the events of its head held. A proxy adds up
/// [`event_size`](crate::cqlp_compose::event_size) of the events of the cells, begins the page with its header, its metadata and the count of its rows, and
/// then hands on the cells as they come:
///
/// ```text
/// let BegunPage { mut page, head } = OpenPage::begin(composer, rows, cells_len)?;
/// target.write_all(&head)?;
/// let mut cells = PutCells::new(&page, limits);
/// for event in events {
///     if let Some(len) = cells.take(event, &mut room)? {
///         target.write_all(&room[..len])?;
///     }
/// }
/// let place = cells.place();
/// page.set_place(place);
/// page.end()?;
/// ```
pub struct OpenPage {
    pub(crate) frame: Frame,
    pub(crate) place: PageProgress,
}

/// A page that is begun, and what is to be written of it before its first cell.
pub struct BegunPage {
    /// The page, at the place of its first cell.
    pub page: OpenPage,
    /// The bytes before the first cell: the header, the parts that its flags announce, the metadata, and the count of the rows.
    pub head: Vec<u8>,
}

impl OpenPage {
    /// Begins the page whose head has the events that came to a composer, its header, its metadata and all else before the count of its rows, and then
    /// this count. Its cells are to have `cells_len` bytes, as [`event_size`](crate::cqlp_compose::event_size) counts those of their events.
    ///
    /// # Errors
    ///
    /// [`BeginPageError::Build`] with what [`Composer::take`] says of a count of rows that comes next, or with what [`Composer::close`] says of the frame
    /// without rows, and then [`BeginPageError::NoPage`] where this is another message than a page. Then [`BeginPageError::Unfit`] with what
    /// [`Frame::page_unfit`] says of a page of as many rows and bytes. Memory may be refused at any time.
    pub fn begin(
        composer: Composer,
        rows: u32,
        cells_len: u64,
    ) -> Result<BegunPage, BeginPageError> {
        match BarePage::new(composer, rows) {
            Ok(page) => page.begin(cells_len),
            Err(why) => Err(why),
        }
    }

    /// Where it is.
    #[must_use]
    pub fn place(&self) -> PageProgress {
        self.place
    }

    /// Goes on to the place after cells that were put.
    pub fn set_place(&mut self, place: PageProgress) {
        self.place = place;
    }

    /// Sees that all of its cells have come, and all bytes that they were to have.
    ///
    /// # Errors
    ///
    /// [`Unended::CellsMissing`] where cells are still to come, and else [`Unended::BytesMissing`] where bytes are.
    pub fn end(&self) -> Result<(), Unended> {
        if self.place.cells() != self.frame.cells_wanted() {
            return Err(Unended::CellsMissing);
        }
        if self.place.free() != 0 {
            return Err(Unended::BytesMissing);
        }
        Ok(())
    }
}

/// How many bytes the cells are said to have. No body has as many as do not fit.
pub(crate) fn said_len(cells_len: u64) -> u32 {
    cells_len.min(u64::from(u32::MAX)) as u32
}

/// A page without cells, begun with cells of this many bytes.
pub(crate) fn begun(frame: Frame, cells_len: u32) -> Result<BegunPage, BeginPageError> {
    let place = match PageProgress::start(&frame, cells_len) {
        Ok(place) => place,
        Err(why) => return Err(BeginPageError::Unfit(why)),
    };
    match page_head(&frame, cells_len) {
        Ok(head) => Ok(BegunPage {
            page: OpenPage { frame, place },
            head,
        }),
        Err(HeadError::Unfit(why)) => Err(BeginPageError::Unfit(why)),
        Err(HeadError::NoMemory) => Err(BeginPageError::Build(BuildError::NoMemory)),
    }
}

/// The page of as many rows and without cells whose other events came to a composer.
pub(crate) fn bare_page(mut composer: Composer, rows: u32) -> Result<Frame, BeginPageError> {
    let none = Event::Count {
        field: Field::Rows,
        count: 0,
    };
    if let Err(why) = composer.take(&none) {
        return Err(BeginPageError::Build(why));
    }
    match composer.close() {
        Ok(frame) => with_rows(frame, rows),
        Err(why) => Err(BeginPageError::Build(why)),
    }
}

/// The same page with as many rows.
fn with_rows(mut frame: Frame, rows: u32) -> Result<Frame, BeginPageError> {
    if set_rows(&mut frame.message, rows) {
        Ok(frame)
    } else {
        Err(BeginPageError::NoPage)
    }
}

/// Sets how many rows a page has, if it is one.
fn set_rows(message: &mut Message, rows: u32) -> bool {
    match message {
        Message::Rows(page) => {
            page.rows = rows;
            true
        }
        _ => false,
    }
}
