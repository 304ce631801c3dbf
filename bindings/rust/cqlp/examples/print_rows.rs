//! Prints the rows of the pages in a file: cargo run --example print_rows FILE

use cqlp::{Decoder, Event, Field, Kind, Limits, What};
use std::error::Error;
use std::io::Read;

/// The rows of pages as text, cell by cell.
#[derive(Default)]
struct Rows {
    /// The kinds of the values around what comes next, and how many items each has had.
    around: Vec<(Kind, u32)>,
    line: String,
}

impl Rows {
    fn add(&mut self, event: &Event) {
        match event.what {
            What::Text(Field::ColumnName, name) => println!("column {name}"),
            What::Leaf(place, scalar) => self.put(place.column, &scalar.to_string()),
            What::Null(place) => self.put(place.column, "null"),
            What::Empty(place) => self.put(place.column, "empty"),
            What::Enter { place, kind, .. } => {
                self.separate(place.column);
                self.line += if kind == Kind::List { "[" } else { "{" };
                self.around.push((kind, 0));
            }
            What::Leave { .. } => {
                let (kind, _) = self.around.pop().unwrap_or((Kind::List, 0));
                self.line += if kind == Kind::List { "]" } else { "}" };
            }
            What::End(_) => self.end_line(),
            _ => {}
        }
    }

    fn put(&mut self, column: u32, text: &str) {
        self.separate(column);
        self.line += text;
    }

    /// What comes before a value.
    fn separate(&mut self, column: u32) {
        let Some((kind, items)) = self.around.last_mut() else {
            if column == 0 {
                self.end_line();
            } else {
                self.line += " | ";
            }
            return;
        };
        if *items > 0 {
            self.line += if *kind == Kind::Map && *items % 2 == 1 {
                ": "
            } else {
                ", "
            };
        }
        *items += 1;
    }

    fn end_line(&mut self) {
        if !self.line.is_empty() {
            println!("{}", std::mem::take(&mut self.line));
        }
    }
}

fn main() -> Result<(), Box<dyn Error>> {
    let path = std::env::args().nth(1).ok_or("give a file")?;
    let mut file = std::fs::File::open(path)?;
    let mut decoder = Decoder::new(Limits::default())?;
    let mut rows = Rows::default();
    let mut piece = [0; 4096];
    loop {
        let count = file.read(&mut piece)?;
        if count == 0 {
            break;
        }
        let mut events = decoder.decode(&piece[..count]);
        while let Some(event) = events.next_event()? {
            rows.add(&event);
        }
    }
    println!("{}", decoder.finish());
    Ok(())
}
