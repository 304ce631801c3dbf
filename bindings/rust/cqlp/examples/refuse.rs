//! Reads a page whose only cell is a list that says 2,147,483,647 elements, and has two.

use cqlp::{Decoder, Limits};
use std::error::Error;

const FRAME: &[u8] =
    b"\x84\0\0\0\x08\0\0\0\x31\0\0\0\x02\0\0\0\x01\0\0\0\x01\0\x01k\0\x01t\0\x01c\0\x20\0\x09\0\0\0\x01\
    \0\0\0\x10\x7f\xff\xff\xff\0\0\0\x04\0\0\0\x01\xff\xff\xff\xff";

fn main() -> Result<(), Box<dyn Error>> {
    let mut decoder = Decoder::new(Limits::default())?;
    let mut events = decoder.decode(FRAME);
    let refusal = loop {
        match events.next_event() {
            Ok(Some(event)) => println!("{event}"),
            Ok(None) => return Err("it was not refused".into()),
            Err(refusal) => break refusal,
        }
    };
    println!("{refusal}");
    println!("{:?}", decoder.held());
    Ok(())
}
