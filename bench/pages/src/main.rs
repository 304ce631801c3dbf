//! Builds pages in memory and writes them there, as the lines of its standard input say: the name of a page, how many rows
//! it has, how many times it is written, and `cells` where it is written cell by cell, or `append` where it is appended to bytes in
//! memory. bench/encode.sh times it.
//!
//! With the word `count` it writes instead how many events the stream on standard input says, which it reads in pieces of 4,096
//! bytes. With the digits of a stream after it, the types of the last metadata of that stream are given for the first page
//! without metadata. bench/pages.sh times it.
#![forbid(unsafe_code)]

mod count;
mod pages;

use crate::count::print_count;
use crate::pages::{Column, cells, columns_of, page};
use cqlp::frame::{Frame, PageError, PageWriter, Value, append, encode, value_size};
use cqlp::OfStd;
use std::error::Error;
use std::io::{Write, stdin, stdout};

/// How a page is written.
enum Way {
    Whole,
    ByCell,
    Appended,
}

/// What a line asks for.
struct Task {
    columns: &'static [Column],
    rows: u32,
    times: u32,
    way: Way,
}

fn main() -> Result<(), Box<dyn Error>> {
    let mut words = std::env::args().skip(1);
    if words.next().is_some() {
        return print_count(words.next().as_deref());
    }
    for line in stdin().lines() {
        let said = said_of(&line?)?;
        writeln!(stdout(), "{said}")?;
    }
    Ok(())
}

/// Writes the page that a line asks for, and says how many bytes it has and their sum.
fn said_of(line: &str) -> Result<String, Box<dyn Error>> {
    let task = task_of(line).ok_or("a line is a page, its rows and how often it is written")?;
    let bytes = written(&task)?;
    let sum: u64 = bytes.iter().map(|byte| u64::from(*byte)).sum();
    Ok(format!("{line}: {} bytes, which add up to {sum}", bytes.len()))
}

fn task_of(line: &str) -> Option<Task> {
    let mut words = line.split_whitespace();
    let columns = columns_of(words.next()?)?;
    let rows = words.next()?.parse().ok()?;
    let times = words.next()?.parse().ok()?;
    let way = match words.next() {
        None => Way::Whole,
        Some("append") => Way::Appended,
        Some(_) => Way::ByCell,
    };
    Some(Task { columns, rows, times, way })
}

/// The bytes of a page that is written as often as is asked for, each time into the same room.
fn written(task: &Task) -> Result<Vec<u8>, Box<dyn Error>> {
    let cells = cells(task.columns, task.rows);
    let mut target = OfStd::new(Vec::new());
    match task.way {
        Way::Appended => return appended(&page(task.columns, task.rows, cells)?, task.times),
        Way::ByCell => write_by_cell(&page(task.columns, task.rows, Vec::new())?, &cells, task.times, &mut target)?,
        Way::Whole => write_whole(&page(task.columns, task.rows, cells)?, task.times, &mut target)?,
    }
    Ok(target.into_inner())
}

fn appended(frame: &Frame, times: u32) -> Result<Vec<u8>, Box<dyn Error>> {
    let mut bytes = Vec::new();
    for _ in 0..times {
        bytes.clear();
        append(frame, &mut bytes)?;
    }
    Ok(bytes)
}

fn write_whole(frame: &Frame, times: u32, target: &mut OfStd<Vec<u8>>) -> Result<(), Box<dyn Error>> {
    for _ in 0..times {
        target.inner.clear();
        encode(frame, target)?;
    }
    Ok(())
}

/// The same, cell by cell, out of a page that does not hold them.
fn write_by_cell(frame: &Frame, cells: &[Value], times: u32, target: &mut OfStd<Vec<u8>>) -> Result<(), Box<dyn Error>> {
    let cells_len = u32::try_from(cells.iter().map(value_size).sum::<u64>())?;
    for _ in 0..times {
        target.inner.clear();
        write_cells(frame, cells, cells_len, target)?;
    }
    Ok(())
}

fn write_cells(frame: &Frame, cells: &[Value], cells_len: u32, target: &mut OfStd<Vec<u8>>) -> Result<u32, PageError> {
    let mut page = PageWriter::begin(frame, cells_len, target)?;
    for cell in cells {
        page.cell(cell, target)?;
    }
    page.finish()
}

#[cfg(test)]
mod tests {
    use super::said_of;

    /// The numbers of bytes and their sums are those of bench/pages.py.
    #[test]
    fn pages_are_those_of_the_script() {
        let said = [
            "rows 3 2: 218 bytes, which add up to 7178",
            "rows 3 2 cells: 218 bytes, which add up to 7178",
            "rows 3 2 append: 218 bytes, which add up to 7178",
            "collections 2 2: 395 bytes, which add up to 8105",
            "collections 2 2 cells: 395 bytes, which add up to 8105",
            "collections 2 2 append: 395 bytes, which add up to 8105",
            "columns 2 2: 5729 bytes, which add up to 202872",
            "blobs 1 2: 1048630 bytes, which add up to 133695481",
        ];
        for wanted in said {
            let (line, _) = wanted.split_once(':').unwrap_or((wanted, ""));
            assert_eq!(said_of(line).as_deref().ok(), Some(wanted));
        }
    }
}
