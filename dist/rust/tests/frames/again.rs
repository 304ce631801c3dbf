//! Frames, pages and cells that are built and written again, of the events of their bytes.

use super::words::all_of;
use super::written::{LIMITS, tell_events, write};
use cqlp::cells::{CellBuilder, CellLimits, PageCellError, PageCells, PageProgress, ends_cell, event_size, page_head};
use cqlp::frame::{BuildError, BuildLimits, Frame, FrameBuilder, Message, TypeTree};
use cqlp::{Event, Limits, Scalar, SinkFault};

/// How much of a frame may be held, and of a cell.
const ROOM: BuildLimits = BuildLimits { fields: 1_000_000, depth: 64, bytes: 10_000_000 };
const CELL: CellLimits = CellLimits { events: 1_000, bytes: 100_000 };

/// What becomes of a frame whose events are read of these bytes.
pub fn frame_again(frame: &Frame, bytes: &[u8]) -> &'static str {
    let (mut builder, mut again) = (FrameBuilder::new(ROOM), "no frame");
    tell_events(LIMITS, bytes, |event| match builder.take(event) {
        Ok(None) => Ok(()),
        Ok(Some(built)) => {
            again = if built.frame == *frame && built.extra == 0 { "built again" } else { "another frame" };
            Ok(())
        }
        Err(why) => {
            again = if why == BuildError::Unbuilt { "not built" } else { "no frame" };
            Err(SinkFault)
        }
    });
    again
}

/// How many cells of a page are built again of the events of its bytes, each of its column's type, from the first one on; of another
/// frame nothing.
pub fn cells_again(frame: &Frame, bytes: &[u8]) -> String {
    let Message::Rows(page) = &frame.message else { return String::new() };
    let columns = page.meta.specs.as_deref().unwrap_or(&[]);
    let (mut builder, mut again) = (CellBuilder::new(CELL), 0);
    tell_events(LIMITS, bytes, |event| {
        // An event that is none of a cell is refused by the builder, and passed over.
        if builder.take(event).is_err() || !ends_cell(event) {
            return Ok(());
        }
        let column = columns.get(again % columns.len().max(1)).map(|spec| &spec.tree);
        match (builder.finish(column), page.cells.get(again)) {
            (Ok(value), Some(wanted)) if value == *wanted => {
                again += 1;
                Ok(())
            }
            _ => Err(SinkFault),
        }
    });
    format!("{again} of {} cells built again\n", page.cells.len())
}

/// What a builder of cells answers between cells to the end of a value, then to a part of a scalar, to a text of three bytes, to an int
/// and to the same int again, and what it makes of these. The words are how many events and bytes it may hold, and a type.
pub fn said_of_cell(line: &str) -> String {
    let (limits, tree): (CellLimits, TypeTree) =
        all_of(line, |words| (CellLimits { events: words.read(), bytes: words.read() }, words.read()));
    let leaf = |scalar| Event::Leaf { row: 0, column: 0, level: 0, scalar };
    let part = Event::Part { row: 0, column: 0, level: 0, offset: 0, bytes: &[7], last: true };
    let end = Event::Leave { level: 0, items: 0 };
    let mut builder = CellBuilder::new(limits);
    let answers = [end, part, leaf(Scalar::Varchar("abc")), leaf(Scalar::Int(7)), leaf(Scalar::Int(7))]
        .map(|event| format!("{:?}, ", builder.take(&event)))
        .concat();
    format!("{line}: {answers}{:?}\n", builder.finish(Some(&tree)))
}

/// How a page is read, and how much of it may be held.
struct Asked {
    held: BuildLimits,
    /// Of how many bytes the parts of a scalar are; None: it comes whole.
    part: Option<u32>,
    /// The row of which no cell comes.
    left_out: Option<u32>,
}

/// What a builder answers to the end of a frame, or to the first of its events that it refuses. The words before the frame are how many
/// fields, how deep types and how many bytes it may hold, of how many bytes the parts of a scalar are, or `-`, and of which row no cell
/// comes, or `-`.
pub fn said_of_page(line: &str) -> String {
    let (asked, frame): (Asked, Frame) = all_of(line, |words| {
        let held = BuildLimits { fields: words.read(), depth: words.read(), bytes: words.read() };
        (Asked { held, part: words.option(), left_out: words.option() }, words.read())
    });
    let limits = asked.part.map_or(LIMITS, |part| Limits { cell: part, parts: true, ..LIMITS });
    let (mut builder, mut answer) = (FrameBuilder::new(asked.held), None);
    tell_events(limits, &write(&frame).1, |event| {
        if asked.left_out.is_some() && row_of(event) == asked.left_out {
            return Ok(());
        }
        let taken = builder.take(event);
        let is_refused = taken.is_err();
        if let Some(taken) = taken.transpose() {
            answer = Some(taken.map(|built| built.extra));
        }
        if is_refused { Err(SinkFault) } else { Ok(()) }
    });
    format!("{line}: {answer:?}\n")
}

/// The row of what is told of a cell; the end of a value names none.
fn row_of(event: &Event<'_>) -> Option<u32> {
    match event {
        Event::Leaf { row, .. }
        | Event::Null { row, .. }
        | Event::Empty { row, .. }
        | Event::Enter { row, .. }
        | Event::Part { row, .. } => Some(*row),
        _ => None,
    }
}

/// How many bytes the events of a page tell of, what kept an event from being taken, and whether the page's bytes are written again. The
/// words are how many cells a piece is to have, a page without its cells, and the page with them, or with others.
pub fn said_of_pieces(line: &str) -> String {
    let (each, page, whole): (u32, Frame, Frame) = all_of(line, |words| (words.read(), words.read(), words.read()));
    let (_, bytes) = write(&whole);
    let mut size = 0;
    tell_events(LIMITS, &bytes, |event| {
        size += event_size(event);
        Ok(())
    });
    format!("{line}: {size}, {}\n", written_again(&page, size as u32, each, &bytes))
}

/// Writes a page again of the events of its bytes, and says whether it is the same.
fn written_again(page: &Frame, size: u32, each: u32, bytes: &[u8]) -> &'static str {
    let (Ok(head), Ok(place)) = (page_head(page, size), PageProgress::start(page, size)) else {
        return "no page";
    };
    let mut again = Pieces { page, place, cells: PageCells::new(page, place, CELL), each, held: 0, bytes: head };
    let mut why = None;
    tell_events(LIMITS, bytes, |event| {
        why = if is_of_cell(event) { again.take(event).err() } else { None };
        if why.is_some() { Err(SinkFault) } else { Ok(()) }
    });
    match (why, again.give()) {
        (None, Ok(())) if again.place.is_done(page) && again.bytes == bytes => "the same again",
        (Some(PageCellError::Cell(_)), _) => "an event is refused",
        (Some(PageCellError::PastLength), _) => "too long",
        (_, Err(_)) => "a cell is cut",
        _ => "not whole",
    }
}

/// Writes the cells of a page, of their events, so many in each piece.
struct Pieces<'a> {
    page: &'a Frame,
    place: PageProgress,
    cells: PageCells<'a>,
    /// How many cells a piece is to have, and how many have come of it.
    each: u32,
    held: u32,
    /// What was written.
    bytes: Vec<u8>,
}

impl Pieces<'_> {
    /// Ends a piece, and begins the next.
    fn give(&mut self) -> Result<(), PageCellError> {
        let next = PageCells::new(self.page, self.place, CELL);
        let written = std::mem::replace(&mut self.cells, next).finish()?;
        self.held = 0;
        self.place = written.place;
        self.cells = PageCells::new(self.page, self.place, CELL);
        self.bytes.extend_from_slice(&written.bytes);
        Ok(())
    }

    /// Takes an event of a cell.
    fn take(&mut self, event: &Event<'_>) -> Result<(), PageCellError> {
        self.cells.take(event)?;
        self.held += u32::from(ends_cell(event));
        if self.held < self.each { Ok(()) } else { self.give() }
    }
}

fn is_of_cell(event: &Event<'_>) -> bool {
    matches!(event, Event::Leaf { .. } | Event::Null { .. } | Event::Empty { .. } | Event::Enter { .. } | Event::Leave { .. })
}
