//! What the command has of `jiff_core`: the days of dates.
use crate::jiff_core::civil::Date;

impl Date {
    pub fn new(year: i16, month: i8, day: i8) -> Result<Date, ()> {
        let date = Date { year, month: month as u8, day: day as u8 };
        let same = Date::from_unix_epoch_day(date.to_unix_epoch_day().into());
        same.filter(|it| (it.year, it.month, it.day) == (year, date.month, date.day)).ok_or(())
    }

    pub fn to_unix_epoch_day(&self) -> i32 {
        let (month, year) = (i32::from(self.month), i32::from(self.year) - i32::from(self.month <= 2));
        let of_era = year.rem_euclid(400);
        let of_year = (153 * (month + if month > 2 { -3 } else { 9 }) + 2) / 5 + i32::from(self.day) - 1;
        year.div_euclid(400) * 146_097 + of_era * 365 + of_era / 4 - of_era / 100 + of_year - 719_468
    }
}
