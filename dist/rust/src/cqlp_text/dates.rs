// Written by dist/erase from crates/cqlp_text/src/dates.rt.
//! Dates as text.

use crate::cqlp_text::pen::Pen;
use crate::cqlp_text::text_writer::TextWriter;
use crate::cqlp_grammar::SinkFault;
use crate::jiff_core::civil::Date;

/// The number of the first of January 1970 in a cell.
const EPOCH: u32 = 1 << 31;

/// The number of the first of January of the year 0.
const FIRST: u32 = EPOCH - 719_528;

/// How many days the years 0 to 9999 have.
const DAYS: u32 = 3_652_425;

impl<P: Pen> TextWriter<P> {
    /// Takes the date of a day: of the years 0 to 9999 as year, month and day, and else as the number
    /// of days from 1970.
    #[inline(never)]
    pub fn put_date(&mut self, number: u32) -> Result<(), SinkFault> {
        if number < FIRST {
            return self.put_day_number(number);
        }
        let day = number - FIRST;
        if day < DAYS {
            self.put_civil(day)
        } else {
            self.put_day_number(number)
        }
    }

    fn put_day_number(&mut self, number: u32) -> Result<(), SinkFault> {
        self.put(b"day ")?;
        self.put_signed(i64::from(number) - i64::from(EPOCH))
    }

    /// Takes the date of a day from the first of January of the year 0, up to the year 9999.
    fn put_civil(&mut self, day: u32) -> Result<(), SinkFault> {
        let date = date_of(day);
        let year = year_of(&date);
        let month = u64::from(date.month);
        let day = u64::from(date.day);
        self.put_digits(4, year)?;
        self.put(b"-")?;
        self.put_digits(2, month)?;
        self.put(b"-")?;
        self.put_digits(2, day)
    }
}

/// The date of a day from the first of January of the year 0, up to the year 9999.
fn date_of(day: u32) -> Date {
    Date::from_unix_epoch_day(i64::from(day) - 719_528).unwrap()
}

/// The year of a date that is not before the year 0.
fn year_of(date: &Date) -> u64 {
    u64::from(date.year.unsigned_abs())
}
