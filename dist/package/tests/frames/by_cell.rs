//! Pages that are written cell by cell, and of cells that are lent twice.

use super::sockets::{Stops, is_told};
use super::words::{FromWords, Words, all_of};
use super::written::digits_line;
use cqlp::OfSocket;
use cqlp::frame::{Frame, PageError, PageWriter, TypeTree, Value, encode_rows};

/// How often a page is gone on with at most.
const STOPS: usize = 1_000;

/// A page without cells, and those that are written after it.
struct Plan {
    /// How many bytes the cells are said to have.
    cells_len: u32,
    frame: Frame,
    cells: Vec<Cell>,
}

/// A value of its column's type, or one of a type that is named.
struct Cell {
    of: Option<TypeTree>,
    value: Value,
}

impl Cell {
    /// Writes it.
    fn put(&self, page: &mut PageWriter<'_>, socket: &mut OfSocket<Stops>) -> Result<(), PageError> {
        match &self.of {
            Some(tree) => page.cell_as(&self.value, tree, socket),
            None => page.cell(&self.value, socket),
        }
    }

    /// Goes on with it.
    fn resume(&self, page: &mut PageWriter<'_>, socket: &mut OfSocket<Stops>) -> Result<(), PageError> {
        match &self.of {
            Some(tree) => page.resume_as(&self.value, tree, socket),
            None => page.resume(&self.value, socket),
        }
    }
}

/// A value, after `as` and its type where that is named.
impl FromWords for Cell {
    fn from_words(words: &mut Words<'_>) -> Cell {
        Cell { of: words.accept("as").then(|| words.read()), value: words.read() }
    }
}

/// What each call answers, and the bytes that came. Then, of what a socket gets that takes all, how many rests are written after a stop,
/// and how many stops a socket makes that takes one byte at a time. The words are how many bytes the first socket takes before it fails,
/// how many the cells are said to have, a page, and its cells.
pub fn said_of_cells(line: &str) -> String {
    let (room, plan) = all_of(line, |words| (words.read(), Plan { cells_len: words.read(), frame: words.read(), cells: words.list() }));
    let mut socket = Stops::socket(room, 0);
    let answers = answers(&plan, &mut socket);
    let came = digits_line(&socket.inner.text);
    format!("== cells | {line}\n{answers}{came}{}", rests_line(&plan))
}

fn answers(plan: &Plan, socket: &mut OfSocket<Stops>) -> String {
    let mut page = match PageWriter::begin(&plan.frame, plan.cells_len, socket) {
        Ok(page) => page,
        Err(error) => return format!("{error:?}\n"),
    };
    let cells: String = plan.cells.iter().map(|cell| format!("{:?}\n", cell.put(&mut page, socket))).collect();
    format!("{cells}{:?}\n", page.finish())
}

/// How many rests of a whole page are written after a stop, and how many stops it has byte by byte.
fn rests_line(plan: &Plan) -> String {
    let mut socket = Stops::socket(usize::MAX, 0);
    let answer = write_on(plan, &mut socket);
    let bytes = &socket.inner.text;
    let rests = (0..bytes.len()).filter(|room| stops(plan, answer, bytes, *room, usize::MAX) == 1).count();
    format!("{rests} rests, {} stops\n", stops(plan, answer, bytes, 1, 1))
}

/// How often a socket stops that takes `first` bytes before it would block, and `later` bytes before each later time, where the page
/// is gone on with each time; 0 where the last answer is not the one that is wanted, or not just these bytes have come.
fn stops(plan: &Plan, wanted: Result<u32, PageError>, bytes: &[u8], first: usize, later: usize) -> u64 {
    let mut socket = Stops::socket(first, later);
    let answer = write_on(plan, &mut socket);
    if answer == wanted && socket.inner.text == bytes { socket.failures } else { 0 }
}

/// What the last call answers, where each that stops is followed by one that goes on. None goes on with a cell that was not begun.
fn write_on(plan: &Plan, socket: &mut OfSocket<Stops>) -> Result<u32, PageError> {
    let mut page = begin_on(plan, socket)?;
    for cell in &plan.cells {
        if cell.resume(&mut page, socket) != Err(PageError::OutOfTurn) {
            return Err(PageError::OutOfTurn);
        }
        put_on(cell, &mut page, socket);
    }
    page.finish()
}

/// Goes on with what comes before the first cell, as long as each call tells how many bytes came.
fn begin_on<'a>(plan: &'a Plan, socket: &mut OfSocket<Stops>) -> Result<PageWriter<'a>, PageError> {
    let mut begun = PageWriter::begin(&plan.frame, plan.cells_len, socket);
    for _ in 0..STOPS {
        let Err(PageError::Write { written }) = begun else { break };
        if !is_told(socket, written) {
            break;
        }
        begun = PageWriter::begin_from(&plan.frame, plan.cells_len, written, socket);
    }
    begun
}

/// The same with a cell. Where it stopped, it is not written anew.
fn put_on(cell: &Cell, page: &mut PageWriter<'_>, socket: &mut OfSocket<Stops>) {
    let mut answer = cell.put(page, socket);
    for _ in 0..STOPS {
        let Err(PageError::Write { written }) = answer else { break };
        if !is_told(socket, written) || cell.put(page, socket) != answer {
            break;
        }
        answer = cell.resume(page, socket);
    }
}

/// A row that lends some cells, and other ones each later time.
struct Lent {
    first: Vec<Value>,
    again: Vec<Value>,
    is_lent: std::cell::Cell<bool>,
}

impl AsRef<[Value]> for Lent {
    fn as_ref(&self) -> &[Value] {
        if self.is_lent.replace(true) { &self.again } else { &self.first }
    }
}

/// What is answered, and the bytes that came. The words are how many bytes the socket takes before it fails, a page, the cells that are
/// lent first, and those that are lent again.
pub fn said_of_lent(line: &str) -> String {
    let (room, page, row): (usize, Frame, Lent) = all_of(line, |words| {
        let (room, page) = words.read();
        (room, page, Lent { first: words.list(), again: words.list(), is_lent: false.into() })
    });
    let mut socket = Stops::socket(room, 0);
    let answer = encode_rows(&page, &[row], &mut socket);
    format!("== lent | {line}\n{answer:?}\n{}", digits_line(&socket.inner.text))
}
