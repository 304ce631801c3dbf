// Written by dist/erase from crates/cqlp_capture_rows/src/silent.rt.
//! A pen for a reading of which nothing is written.

use crate::cqlp_grammar::SinkFault;
use crate::cqlp_text::{Gap, Pen};

/// Takes texts, and keeps none.
pub(crate) struct Silent;

impl Pen for Silent {
    fn put(&mut self, _bytes: &[u8]) -> Result<(), SinkFault> {
        Ok(())
    }

    fn put_number(&mut self, _number: u64) -> Result<(), SinkFault> {
        Ok(())
    }

    fn takes_item(&mut self, _gap: Gap, _number: u64, _ends_line: bool) -> bool {
        false
    }

    fn takes_text(&mut self, _gap: Gap, _text: &str, _ends_line: bool) -> bool {
        false
    }

    fn put_digits(&mut self, _count: usize, _number: u64) -> Result<(), SinkFault> {
        Ok(())
    }
}
