// Written by dist/erase from crates/cqlp/src/screen.rt.
//! A table as a terminal shows it: its heading bold, and each line as long as there is room.

use crate::cqlp_note::{IoFault, Target, offer};

/// How many columns a table has at least, where the terminal is narrower: those of its numbers, and some of the name. Its lines then take several rows of the
/// terminal.
const LEAST_COLUMNS: usize = 120;

/// Passes on what it is given: as it is, or as a table.
pub struct Screen<T: Target> {
    target: T,
    /// The table, where it shows one.
    table: Option<Table>,
    /// How many calls failed, or took nothing of some bytes, up to 2^64 - 1.
    failures: u64,
    /// How many calls took all of their bytes, up to 2^64 - 1.
    writes: u64,
}

/// How far a table is shown.
#[derive(Clone, Copy)]
pub struct Table {
    /// How many columns a line has.
    columns: usize,
    /// How many of the line are taken; more than there are, where the rest of the line is cut.
    taken: usize,
    heading: Heading,
}

/// How a table's first line is written.
#[derive(Clone, Copy, PartialEq, Eq)]
enum Heading {
    /// As any other.
    Plain,
    /// Bold, once it begins.
    Bold,
    /// Bold, and it has begun.
    Begun,
}

impl Table {
    /// For a terminal of so many columns, if that is known, with a bold heading or a plain one.
    pub fn new(terminal: Option<usize>, is_bold: bool) -> Table {
        Table {
            columns: terminal.map_or(usize::MAX, columns_on),
            taken: 0,
            heading: if is_bold {
                Heading::Bold
            } else {
                Heading::Plain
            },
        }
    }

    /// How many of these bytes are shown before one that is not, and at most to the end of a bold heading.
    fn shown(&self, bytes: &[u8]) -> usize {
        let mut taken = self.taken;
        for (count, byte) in bytes.iter().enumerate() {
            if *byte == b'\n' && count > 0 && self.heading == Heading::Begun {
                return count;
            }
            taken = taken_after(taken, *byte);
            if taken > self.columns {
                return count;
            }
        }
        bytes.len()
    }

    /// These bytes were shown.
    fn advance(&mut self, bytes: &[u8]) {
        for byte in bytes {
            self.taken = taken_after(self.taken, *byte);
        }
    }

    /// How many of these bytes are not shown: up to the end of the line.
    fn cut(&mut self, bytes: &[u8]) -> usize {
        let cut = bytes
            .iter()
            .position(|byte| *byte == b'\n')
            .unwrap_or(bytes.len());
        if cut > 0 {
            self.taken = self.columns.saturating_add(1);
        }
        cut
    }
}

/// The least multiple of a terminal's columns, so that each line takes whole rows, which is not below `LEAST_COLUMNS`.
fn columns_on(terminal: usize) -> usize {
    let terminal = terminal.max(1);
    terminal.saturating_mul(LEAST_COLUMNS.div_ceil(terminal))
}

/// How many columns are taken with this byte behind so many: none after the end of a line, and two with a character that may be a wide one.
fn taken_after(taken: usize, byte: u8) -> usize {
    match byte {
        b'\n' => 0,
        0x80..=0xBF => taken,
        0xE0.. => taken.saturating_add(2),
        _ => taken.saturating_add(1),
    }
}

impl<T: Target> Screen<T> {
    /// Nothing was passed on.
    pub fn new(target: T, table: Option<Table>) -> Self {
        Screen {
            target,
            table,
            failures: 0,
            writes: 0,
        }
    }

    /// Passes on the first bytes of a table, or cuts them; answers how many these were.
    fn write_table(&mut self, mut table: Table, bytes: &[u8]) -> Result<usize, IoFault> {
        self.style(&mut table, bytes);
        self.table = Some(table);
        let shown = table.shown(bytes);
        let count = if shown > 0 {
            self.target.write(&bytes[..shown])?
        } else {
            0
        };
        table.advance(&bytes[..count]);
        let cut = if count == shown {
            table.cut(&bytes[shown..])
        } else {
            0
        };
        self.table = Some(table);
        Ok(count + cut)
    }

    /// Begins a bold heading before these bytes, or ends it. A fault is left to the write of the bytes.
    fn style(&mut self, table: &mut Table, bytes: &[u8]) {
        match (table.heading, bytes.first()) {
            (Heading::Bold, Some(_)) => {
                offer(&mut self.target, b"\x1b[1m");
                table.heading = Heading::Begun;
            }
            (Heading::Begun, Some(b'\n')) => {
                offer(&mut self.target, b"\x1b[0m");
                table.heading = Heading::Plain;
            }
            _ => {}
        }
    }

    /// Counts a call that was given these bytes, and answered this.
    fn count(&mut self, bytes: &[u8], answer: Result<usize, IoFault>) {
        match answer {
            Ok(count) if count == bytes.len() => self.writes = self.writes.saturating_add(1),
            Ok(count) if count > 0 => {}
            _ => self.failures = self.failures.saturating_add(1),
        }
    }
}

impl<T: Target> Target for Screen<T> {
    fn write(&mut self, bytes: &[u8]) -> Result<usize, IoFault> {
        let taken = match self.table {
            Some(table) => self.write_table(table, bytes),
            None => self.target.write(bytes),
        };
        self.count(bytes, taken);
        taken
    }
}
