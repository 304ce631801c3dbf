//! Writes a line for each event of a file, and the verdict to standard error, as `cqlp show` does: cargo run --example show FILE

use cqlp::{Decoder, Limits};
use std::error::Error;
use std::fs::File;
use std::io::{stdout, BufWriter, Read, Write};

fn main() -> Result<(), Box<dyn Error>> {
    let mut file = File::open(std::env::args().nth(1).ok_or("give a file")?)?;
    let mut decoder = Decoder::new(Limits::default())?;
    let mut lines = BufWriter::new(stdout().lock());
    let mut piece = [0; 4096];
    loop {
        let count = file.read(&mut piece)?;
        if count == 0 {
            break;
        }
        let mut events = decoder.decode(&piece[..count]);
        // the verdict reports a refusal
        while let Ok(Some(event)) = events.next_event() {
            writeln!(lines, "{event}")?;
        }
    }
    lines.flush()?;
    eprintln!("{}", decoder.finish());
    Ok(())
}
