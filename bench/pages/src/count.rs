//! Counts the events of streams.

use cqlp::{Decoder, Event, Limits, OfStd, Outcome, Sink, SinkFault, Source, TypeTable, run};
use std::error::Error;
use std::fs::File;
use std::io::stdin;
use std::os::fd::AsFd;

/// Counts events.
struct Counter {
    events: u64,
}

impl Sink for Counter {
    fn take(&mut self, _: u64, _: &Event<'_>) -> Result<(), SinkFault> {
        self.events = self.events.wrapping_add(1);
        Ok(())
    }
}

/// Prints how many events standard input says, and how it ends. The types of the last metadata of the stream with these digits, if
/// there are any, are given for the first page without metadata.
pub fn print_count(digits: Option<&str>) -> Result<(), Box<dyn Error>> {
    let mut decoder = Decoder::new(Limits::DEFAULT)?;
    if let Some(digits) = digits {
        decoder.give(types(&bytes_of(digits)?)?).map_err(|error| format!("{:?}", error.why))?;
    }
    // Standard input itself, so that each read is one of the decoder's.
    let input = File::from(stdin().as_fd().try_clone_to_owned()?);
    let (events, outcome) = count(&mut decoder, &mut OfStd::new(input));
    let Outcome::Finished(finish) = outcome else {
        return Err("standard input is not read to its end".into());
    };
    println!("{events} events, {finish:?}");
    Ok(())
}

fn count<S: Source>(decoder: &mut Decoder, input: &mut S) -> (u64, Outcome) {
    let mut counter = Counter { events: 0 };
    let outcome = run(decoder, input, &mut counter, u64::MAX);
    (counter.events, outcome)
}

/// The types of the last metadata of a stream.
fn types(stream: &[u8]) -> Result<TypeTable, Box<dyn Error>> {
    let mut decoder = Decoder::new(Limits::DEFAULT)?;
    count(&mut decoder, &mut OfStd::new(stream));
    Ok(decoder.table().clone_table()?)
}

/// The bytes with these hexadecimal digits.
fn bytes_of(digits: &str) -> Result<Vec<u8>, Box<dyn Error>> {
    let pair = |at| Ok(u8::from_str_radix(digits.get(at..at + 2).ok_or("an odd digit")?, 16)?);
    (0..digits.len()).step_by(2).map(pair).collect()
}
