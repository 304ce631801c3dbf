// Written by dist/erase from crates/cqlp_pattern/src/builder.rt.
//! A pattern that is built, position by position.

use crate::cqlp_pattern::bad_pattern::PatternFault;
use crate::cqlp_pattern::class::Class;
use crate::cqlp_pattern::fragment::Fragment;
use crate::cqlp_pattern::pattern::{BEGIN, END, POSITIONS, SYMBOLS};

/// Positions, those that accept each symbol, and those that may come behind each.
pub(crate) struct Builder {
    pub(crate) accepts: [u128; SYMBOLS],
    pub(crate) follow: [u128; POSITIONS],
    pub(crate) count: usize,
}

impl Builder {
    pub(crate) fn new() -> Builder {
        Builder {
            accepts: [0; SYMBOLS],
            follow: [0; POSITIONS],
            count: 0,
        }
    }

    /// One more position, by its bit.
    fn position(&mut self) -> Result<u128, PatternFault> {
        if POSITIONS <= self.count {
            return Err(PatternFault::Long);
        }
        let bit = 1_u128 << self.count;
        self.count += 1;
        Ok(bit)
    }

    /// A position that accepts the symbols from one to another.
    fn accepting(&mut self, first: usize, last: usize) -> Result<Fragment, PatternFault> {
        let bit = self.position()?;
        self.accept(bit, first, last);
        Ok(Fragment {
            first: bit,
            last: bit,
            is_empty: false,
        })
    }

    fn accept(&mut self, bit: u128, first: usize, last: usize) {
        for symbol in 0..SYMBOLS {
            if first <= symbol && symbol <= last {
                self.accepts[symbol] |= bit;
            }
        }
    }

    /// One character of a class. Of one that is not ASCII the first byte, and behind it those that go on with it.
    pub(crate) fn one(&mut self, class: Class) -> Result<Fragment, PatternFault> {
        let bit = self.position()?;
        for symbol in 0..128_usize {
            if class.ascii >> symbol & 1 == 1 {
                self.accepts[symbol] |= bit;
            }
        }
        let one = Fragment {
            first: bit,
            last: bit,
            is_empty: false,
        };
        if !class.has_others {
            return Ok(one);
        }
        self.accept(bit, 0xc0, 0xff);
        let more = self.accepting(0x80, 0xbf)?;
        let more = self.repeat_last(more).optional();
        Ok(self.sequence(one, more))
    }

    /// These bytes.
    pub(crate) fn bytes(&mut self, bytes: &[u8]) -> Result<Fragment, PatternFault> {
        let mut whole = Fragment::EMPTY;
        for byte in bytes {
            let symbol = usize::from(*byte);
            let next = self.accepting(symbol, symbol)?;
            whole = self.sequence(whole, next);
        }
        Ok(whole)
    }

    /// The begin of a text.
    pub(crate) fn begin(&mut self) -> Result<Fragment, PatternFault> {
        self.accepting(BEGIN, BEGIN)
    }

    /// The end of a text.
    pub(crate) fn end(&mut self) -> Result<Fragment, PatternFault> {
        self.accepting(END, END)
    }

    /// A part and then another.
    pub(crate) fn sequence(&mut self, part: Fragment, next: Fragment) -> Fragment {
        self.connect(part.last, next.first);
        part.then(next)
    }

    /// A part once or more often.
    fn repeat_last(&mut self, part: Fragment) -> Fragment {
        self.connect(part.last, part.first);
        part
    }

    /// Behind each of some positions may come each of others.
    fn connect(&mut self, from: u128, to: u128) {
        for position in 0..POSITIONS {
            if from >> position & 1 == 1 {
                self.follow[position] |= to;
            }
        }
    }

    /// The part whose positions are the last ones, from a place on, so many times, up to so many if there is a limit.
    pub(crate) fn repeated(
        &mut self,
        part: Fragment,
        start: usize,
        least: u8,
        most: Option<u8>,
    ) -> Result<Fragment, PatternFault> {
        let end = self.count;
        let count = most.unwrap_or(least.max(1));
        let mut whole = Fragment::EMPTY;
        for number in 1..=count {
            let next = if number < count {
                self.copy(part, start, end)?
            } else if most.is_none() {
                self.repeat_last(part)
            } else {
                part
            };
            let next = if least < number {
                next.optional()
            } else {
                next
            };
            whole = self.sequence(whole, next);
        }
        Ok(whole)
    }

    /// A copy of the part whose positions are between these places, behind all positions.
    fn copy(&mut self, part: Fragment, start: usize, end: usize) -> Result<Fragment, PatternFault> {
        let offset = self.count.saturating_sub(start);
        let length = end.saturating_sub(start);
        let count = self.count.saturating_add(length);
        if POSITIONS < count || POSITIONS <= offset {
            return Err(PatternFault::Long);
        }
        let inside = inside_of(start, end);
        for symbol in 0..SYMBOLS {
            self.accepts[symbol] |= (self.accepts[symbol] & inside) << offset;
        }
        for position in 0..POSITIONS {
            if start <= position && position < end && position + offset < POSITIONS {
                self.follow[position + offset] = (self.follow[position] & inside) << offset;
            }
        }
        self.count = count;
        Ok(Fragment {
            first: (part.first & inside) << offset,
            last: (part.last & inside) << offset,
            is_empty: part.is_empty,
        })
    }
}

/// A bit for each position between two places.
fn inside_of(start: usize, end: usize) -> u128 {
    let mut inside = 0;
    for position in 0..POSITIONS {
        if start <= position && position < end {
            inside |= 1_u128 << position;
        }
    }
    inside
}
