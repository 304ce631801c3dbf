//! Times the reading of a file of frames: cargo run --release --example count FILE

use cqlp::{check, Decoder, Limits, Stop};
use std::error::Error;
use std::time::Instant;

/// Prints how long a reading took.
fn print_time(what: &str, bytes: usize, began: Instant) {
    let seconds = began.elapsed().as_secs_f64();
    println!(
        "  {what}: {:.0} ms, {:.0} MB/s",
        seconds * 1e3,
        bytes as f64 / 1e6 / seconds
    );
}

fn main() -> Result<(), Box<dyn Error>> {
    let bytes = std::fs::read(std::env::args().nth(1).ok_or("give a file")?)?;

    let began = Instant::now();
    let verdict = check(Limits::default(), &bytes)?;
    print_time(&format!("rust, check, {verdict}"), bytes.len(), began);

    let (mut decoder, mut events) = (Decoder::new(Limits::default())?, 0usize);
    let began = Instant::now();
    for piece in bytes.chunks(65536) {
        let mut lent = decoder.decode(piece);
        while let Some(event) = lent.next_event()? {
            events += usize::from(event.at < u64::MAX);
        }
    }
    print_time(&format!("rust, decode, {events} events"), bytes.len(), began);

    let (mut decoder, mut events) = (Decoder::new(Limits::default())?, 0usize);
    let began = Instant::now();
    for mut piece in bytes.chunks(65536) {
        loop {
            let batch = decoder.batch(piece);
            piece = &piece[batch.used()..];
            let stop = batch.stop();
            events += batch.filter(|event| event.at < u64::MAX).count();
            if stop != Stop::Full {
                break;
            }
        }
    }
    print_time(&format!("rust, batch, {events} events"), bytes.len(), began);
    Ok(())
}
