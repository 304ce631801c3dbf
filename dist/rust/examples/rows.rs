//! Writes the rows of the pages of a file, or of standard input, as text: `cargo run --example rows FILE`
#![forbid(unsafe_code)]

use cqlp::text::{Ending, ending_line, render_rows};
use cqlp::{Decoder, Limits, OfStd, Outcome};
use std::fs::File;
use std::io::{Read, Write, stderr, stdin, stdout};

fn main() -> Result<(), Box<dyn std::error::Error>> {
    let input: Box<dyn Read> = match std::env::args_os().nth(1) {
        Some(path) => Box::new(File::open(path)?),
        None => Box::new(stdin().lock()),
    };
    let mut decoder = Decoder::new(Limits::DEFAULT)?;
    let (outcome, out) = render_rows(&mut decoder, &mut OfStd::new(input), OfStd::new(stdout().lock()), u64::MAX);
    out.into_inner().flush()?;
    match outcome {
        Outcome::Finished(finish) => Ok(ending_line(Ending::Finished(finish), &mut OfStd::new(stderr()))?),
        fault => Err(format!("{fault:?}").into()),
    }
}
