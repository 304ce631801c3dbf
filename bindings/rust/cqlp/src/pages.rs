//! Pages of any size, written of their events.

use crate::encode::{Composer, EncodeError};
use crate::event::{Event, What};
use crate::names::{Code, Field};
use cqlp_sys as sys;
use std::error::Error;
use std::fmt;
use std::io::{self, Write};

/// How many events are held before their cells are written, and how many bytes of contents.
const EVENTS: usize = 64;
const CONTENTS: usize = 1 << 14;

/// How many bytes one call of the library puts, where no cell wants more.
const ROOM: usize = 1 << 14;

/// How many bytes of a page's cells these events take up: the sum over all events of its cells is the [`size`](PageWriter::size) of the page. An
/// event of no cell takes up none.
///
/// # Errors
///
/// [`Code::NoEvent`], or [`Code::Unbuilt`] of a part of a scalar, with the index of the event.
pub fn cells_size(events: &[Event<'_>]) -> Result<u64, EncodeError> {
    let mut given = Composer::new();
    let mut measured = sys::cqlp_measured::default();
    for (before, some) in (0..).step_by(EVENTS).zip(events.chunks(EVENTS)) {
        some.iter().for_each(|event| given.take(event));
        // SAFETY: each points to as much as its type and the number after it say, none is null, and none overlap.
        let code = unsafe {
            sys::cqlp_page_measure(
                given.events.as_ptr(),
                given.events.len(),
                given.contents.as_ptr(),
                given.contents.len(),
                &mut measured,
            )
        };
        if code != sys::CQLP_DONE {
            return Err(EncodeError {
                index: Some(before + measured.event),
                code: Code::of(code),
            });
        }
        given.let_go(given.events.len(), given.contents.len());
    }
    Ok(measured.size)
}

/// A page is not written on.
#[derive(Debug)]
#[non_exhaustive]
pub enum PageError {
    /// An event is refused, or all that came together. The index counts all events of the page, its header's being 0.
    Refused(EncodeError),
    /// What the writer answered.
    Io(io::Error),
}

impl PageError {
    fn together(code: u32) -> PageError {
        PageError::Refused(EncodeError {
            index: None,
            code: Code::of(code),
        })
    }
}

impl fmt::Display for PageError {
    fn fmt(&self, f: &mut fmt::Formatter<'_>) -> fmt::Result {
        match self {
            PageError::Refused(why) => why.fmt(f),
            PageError::Io(why) => why.fmt(f),
        }
    }
}

impl Error for PageError {
    fn source(&self) -> Option<&(dyn Error + 'static)> {
        match self {
            PageError::Refused(_) => None,
            PageError::Io(why) => why.source(),
        }
    }
}

impl From<EncodeError> for PageError {
    fn from(why: EncodeError) -> PageError {
        PageError::Refused(why)
    }
}

impl From<io::Error> for PageError {
    fn from(why: io::Error) -> PageError {
        PageError::Io(why)
    }
}

/// A page of the library, or none.
struct Page(sys::cqlp_page);

impl Page {
    fn free(&mut self) {
        // SAFETY: the handle is one of the library's own, or has none.
        unsafe { sys::cqlp_page_free(&mut self.0) };
    }
}

impl Drop for Page {
    fn drop(&mut self) {
        self.free();
    }
}

// SAFETY: include/cqlp.h lets a handle go to another thread between two calls.
unsafe impl Send for Page {}
// SAFETY: all that is done with it takes `&mut`.
unsafe impl Sync for Page {}

/// How far a page has come.
#[derive(Clone, Copy, PartialEq, Eq)]
enum Stage {
    Head,
    Cells,
    Ended,
    GivenUp,
}

/// Writes a page of any size of its events, those that a decoder gives of it, in their order, and gives what it writes to a [`Write`]. That is what
/// [`encode`](crate::encode) would write of all of them.
///
/// The head, all before the first cell, is written once the count of the rows comes, and cells once there are 64 events, or contents of 16 KiB, and
/// the last cell has ended. So no more of a page is held than its head, and some cells: the events that are not written, each 72 bytes and its
/// content, and the bytes of the cells that one call of the library puts, 16 KiB, or as many as one cell has where it has more. A cell is held whole.
///
/// The header counts the body, so [`size`](PageWriter::size), how many bytes the cells have, is to be known when the head is written. Where their
/// lengths stay, it is what is left of the body of the page that is read; else go over the events of the cells twice, and let
/// [`cells_size`] add them up.
///
/// After an error the page is given up: what was written of it stays, nothing more is, and each further call answers [`Code::NoPage`].
///
/// ```
/// use cqlp::{Decoder, Field, Limits, PageWriter, Scalar, What};
///
/// // a page of two rows, with one column, `c` of the table `k.t`, of int
/// let page = b"\x84\0\0\0\x08\0\0\0\x2b\0\0\0\x02\0\0\0\x01\0\0\0\x01\0\x01k\0\x01t\0\x01c\0\x09\0\0\0\x02\0\0\0\x04\0\0\0\x07\0\0\0\x04\0\0\0\x08";
/// let mut decoder = Decoder::new(Limits::default())?;
/// let mut writer = PageWriter::new(Vec::new(), 0);
/// for piece in page.chunks(5) {
///     let mut events = decoder.decode(piece);
///     while let Some(mut event) = events.next_event()? {
///         match &mut event.what {
///             What::Count(Field::Rows, _) => writer.size = page.len() as u64 - event.at - 4,
///             What::Leaf(_, Scalar::Int(number)) => *number += 1,
///             _ => {}
///         }
///         writer.take(&event)?;
///     }
/// }
/// let written = writer.end()?;
/// assert_eq!(written[..page.len() - 9], page[..page.len() - 9]);
/// assert_eq!(&written[page.len() - 9..], b"\x08\0\0\0\x04\0\0\0\x09");
/// # Ok::<(), Box<dyn std::error::Error>>(())
/// ```
///
/// A page that has ended takes no event:
///
/// ```compile_fail,E0382
/// # use cqlp::{Event, PageWriter, What};
/// let mut writer = PageWriter::new(Vec::new(), 0);
/// writer.end();
/// writer.take(&Event { at: 0, what: What::End(0) });
/// ```
pub struct PageWriter<W> {
    /// How many bytes the cells have. It is looked at when the count of the rows comes.
    pub size: u64,
    target: W,
    page: Page,
    /// The events that are not written.
    held: Composer,
    /// How many of them are those of whole cells.
    whole: usize,
    /// How many events were written.
    written: usize,
    room: Vec<u8>,
    stage: Stage,
}

impl<W: Write> PageWriter<W> {
    /// One that no event came to, of a page whose cells have this many bytes.
    pub fn new(target: W, size: u64) -> PageWriter<W> {
        PageWriter {
            size,
            target,
            page: Page(sys::cqlp_page::NONE),
            held: Composer::new(),
            whole: 0,
            written: 0,
            room: vec![0; ROOM],
            stage: Stage::Head,
        }
    }

    /// Takes the next event, and copies its content. That of the page's end may come, and then nothing may; it may also be left out.
    ///
    /// # Errors
    ///
    /// [`PageError::Refused`] with what `include/cqlp.h` says of `cqlp_page_begin` at the count of the rows, of `cqlp_page_put` where cells are written, and of
    /// `cqlp_page_end` at the page's end: it may be of an event that came before. [`PageError::Io`].
    pub fn take(&mut self, event: &Event<'_>) -> Result<(), PageError> {
        let taken = match (self.stage, event.what) {
            (Stage::Ended | Stage::GivenUp, _) => return Err(PageError::together(sys::CQLP_NO_PAGE)),
            (Stage::Head, what) => self.take_head(event, what),
            (Stage::Cells, What::End(_)) => self.finish(),
            (Stage::Cells, what) => self.take_cell(event, what),
        };
        self.kept(taken)
    }

    /// Writes the cells that are whole, and flushes the writer below.
    pub fn flush(&mut self) -> Result<(), PageError> {
        if self.stage == Stage::GivenUp {
            return Err(PageError::together(sys::CQLP_NO_PAGE));
        }
        let put = self.put(self.whole);
        self.kept(put)?;
        let flushed = self.target.flush().map_err(PageError::Io);
        self.kept(flushed)
    }

    /// Writes what is held, sees that all cells and bytes of the page have come, and gives the writer back.
    ///
    /// # Errors
    ///
    /// As those of [`PageWriter::take`] at the page's end.
    pub fn end(mut self) -> Result<W, PageError> {
        match self.stage {
            Stage::Head => self.begin()?,
            Stage::Cells => {}
            Stage::Ended => return Ok(self.target),
            Stage::GivenUp => return Err(PageError::together(sys::CQLP_NO_PAGE)),
        }
        self.finish()?;
        Ok(self.target)
    }

    /// Gives the page up after an error.
    fn kept(&mut self, done: Result<(), PageError>) -> Result<(), PageError> {
        if done.is_err() {
            self.page.free();
            self.stage = Stage::GivenUp;
        }
        done
    }

    fn take_head(&mut self, event: &Event<'_>, what: What<'_>) -> Result<(), PageError> {
        self.held.take(event);
        match what {
            What::Count(Field::Rows, _) | What::End(_) => self.begin(),
            _ => Ok(()),
        }
    }

    fn take_cell(&mut self, event: &Event<'_>, what: What<'_>) -> Result<(), PageError> {
        self.held.take(event);
        if goes_on(what) {
            return Ok(());
        }
        self.whole = self.held.events.len();
        if self.whole < EVENTS && self.held.contents.len() < CONTENTS {
            return Ok(());
        }
        self.put(self.whole)
    }

    /// Writes the head.
    fn begin(&mut self) -> Result<(), PageError> {
        let mut begun = sys::cqlp_encoded::default();
        loop {
            // SAFETY: each points to as much as its type and the number after it say, none is null, and none overlap.
            let code = unsafe {
                sys::cqlp_page_begin(
                    self.held.events.as_ptr(),
                    self.held.events.len(),
                    self.held.contents.as_ptr(),
                    self.held.contents.len(),
                    self.size,
                    self.room.as_mut_ptr(),
                    self.room.len(),
                    &mut self.page.0,
                    &mut begun,
                )
            };
            match code {
                sys::CQLP_DONE => break,
                sys::CQLP_NO_ROOM => self.room.resize(begun.length, 0),
                _ => return Err(self.held.failed(code, begun.event).into()),
            }
        }
        self.target.write_all(&self.room[..begun.length])?;
        self.stage = Stage::Cells;
        self.let_go(self.held.events.len(), self.held.contents.len());
        Ok(())
    }

    /// Writes the cells of this many events.
    fn put(&mut self, events: usize) -> Result<(), PageError> {
        let (mut done, mut used) = (0, 0);
        while done < events {
            let (code, put) = put_some(
                &mut self.page,
                &self.held.events[done..events],
                &self.held.contents[used..],
                &mut self.room,
            );
            let index = (done + put.event < events).then_some(self.written + done + put.event);
            done += put.events;
            used += put.used;
            self.target.write_all(&self.room[..put.length])?;
            match code {
                sys::CQLP_DONE => {}
                sys::CQLP_NO_ROOM => self.room.resize(self.room.len().max(put.wanted), 0),
                _ => {
                    let code = Code::of(code);
                    return Err(EncodeError { index, code }.into());
                }
            }
        }
        self.let_go(done, used);
        Ok(())
    }

    fn let_go(&mut self, events: usize, contents: usize) {
        self.held.let_go(events, contents);
        self.written += events;
        self.whole = 0;
    }

    /// Writes all that is held, and sees that the page is whole.
    fn finish(&mut self) -> Result<(), PageError> {
        self.put(self.held.events.len())?;
        // SAFETY: the handle is one of the library's own.
        match unsafe { sys::cqlp_page_end(&mut self.page.0) } {
            sys::CQLP_DONE => {
                self.page.free();
                self.stage = Stage::Ended;
                Ok(())
            }
            code => Err(PageError::together(code)),
        }
    }
}

impl<W: fmt::Debug> fmt::Debug for PageWriter<W> {
    fn fmt(&self, f: &mut fmt::Formatter<'_>) -> fmt::Result {
        f.debug_struct("PageWriter")
            .field("size", &self.size)
            .field("target", &self.target)
            .finish_non_exhaustive()
    }
}

/// Puts the cells of these events that there is room for.
fn put_some(page: &mut Page, events: &[sys::cqlp_event], contents: &[u8], room: &mut [u8]) -> (u32, sys::cqlp_put) {
    let mut put = sys::cqlp_put::default();
    // SAFETY: each points to as much as its type and the number after it say, none is null, and none overlap.
    let code = unsafe {
        sys::cqlp_page_put(
            &mut page.0,
            events.as_ptr(),
            events.len(),
            contents.as_ptr(),
            contents.len(),
            room.as_mut_ptr(),
            room.len(),
            &mut put,
        )
    };
    (code, put)
}

/// Whether a cell goes on after this event.
fn goes_on(what: What<'_>) -> bool {
    match what {
        What::Enter { .. } => true,
        What::Leaf(place, _) | What::Null(place) | What::Empty(place) | What::Part { place, .. } => place.level > 0,
        What::Leave { level, .. } => level > 0,
        _ => false,
    }
}

#[cfg(test)]
mod tests {
    use super::*;
    use crate::event::{Frame, Place, Scalar};
    use crate::names::{Kind, Opcode};

    /// What is held of a long page of short cells stays as it is.
    #[test]
    fn what_is_held() {
        const ROWS: u32 = 10_000;
        let header = Frame {
            response: true,
            flags: 0,
            stream: 7,
            opcode: Opcode::Result,
            length: 0,
        };
        let head = [
            What::Frame(header),
            What::Int(Field::ResultKind, 2),
            What::Int(Field::MetaFlags, 1),
            What::Count(Field::Columns, 1),
            What::Text(Field::Keyspace, "k"),
            What::Text(Field::Table, "t"),
            What::Text(Field::ColumnName, "c"),
            What::TypeNode(Kind::Varchar),
            What::Count(Field::Rows, ROWS),
        ];
        let cell = |row| {
            let (column, level) = (0, 0);
            What::Leaf(Place { row, column, level }, Scalar::Varchar("0123456789"))
        };
        let mut writer = PageWriter::new(io::sink(), 14 * u64::from(ROWS));
        for what in head.into_iter().chain((0..ROWS).map(cell)) {
            writer.take(&Event { at: 0, what }).unwrap();
            assert!(writer.held.events.capacity() <= 2 * EVENTS && writer.held.contents.capacity() <= 2 * CONTENTS);
            assert_eq!(writer.room.len(), ROOM);
        }
        writer.end().unwrap();
    }
}
