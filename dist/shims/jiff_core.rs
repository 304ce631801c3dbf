//! What the sources use of `jiff_core`: the civil date of a day.
pub mod civil {
    pub struct Date {
        pub year: i16,
        pub month: u8,
        pub day: u8,
    }

    impl Date {
        /// Howard Hinnant's algorithm, for the years -9999 to 9999.
        pub fn from_unix_epoch_day(day: i64) -> Option<Date> {
            let days = day.checked_add(719_468)?;
            let (era, of_era) = (days.div_euclid(146_097), days.rem_euclid(146_097));
            let year = (of_era - of_era / 1460 + of_era / 36_524 - of_era / 146_096) / 365;
            let of_year = of_era - (365 * year + year / 4 - year / 100);
            let month = (5 * of_year + 2) / 153;
            let (day, month) = (of_year - (153 * month + 2) / 5 + 1, if month < 10 { month + 3 } else { month - 9 });
            let year = year + era * 400 + i64::from(month <= 2);
            (-9999..=9999).contains(&year).then_some(Date { year: year as i16, month: month as u8, day: day as u8 })
        }
    }
}
