// Written by dist/erase from crates/cqlp_options/src/calendar.rt.
//! Times of the calendar, in UTC, as `2026-11-29T10:15:30.25Z`. ISO 8601, and RFC 3339, section 5.6.

use crate::kit_host::prelude::{KitNumber};
use crate::cqlp_options::time::{is_digit, with_places};
use crate::jiff_core::civil::Date;

/// The nanoseconds since 1970-01-01 00:00:00 UTC of a time of the calendar, with up to nine digits after the point. None is before then.
pub(crate) fn nanoseconds_at(text: &[u8]) -> Option<u64> {
    if text.len() < 20 {
        return None;
    }
    let date = date_in(&text[..10])?;
    let days = days_until(date)?;
    let seconds = seconds_in(&text[10..])?;
    let places = places_in(&text[19..])?;
    let nanoseconds = with_places(days * 86_400 + seconds, places)?;
    Some(nanoseconds)
}

/// A date as `2026-11-29`.
fn date_in(text: &[u8]) -> Option<Date> {
    if text[4] != b'-' || text[7] != b'-' {
        return None;
    }
    let century = two_at(text, 0)?;
    let years = two_at(text, 2)?;
    let month = two_at(text, 5)?;
    let day = two_at(text, 8)?;
    let date = date_of(i16::from(century) * 100 + i16::from(years), month, day)?;
    Some(date)
}

/// The date with these numbers, if the calendar has it.
fn date_of(year: i16, month: u8, day: u8) -> Option<Date> {
    let (Ok(month), Ok(day)) = (i8::try_from(month), i8::try_from(day)) else {
        return None;
    };
    match Date::new(year, month, day) {
        Ok(date) => Some(date),
        Err(_) => None,
    }
}

/// The days from 1970-01-01 until a date, if it is not before then.
fn days_until(date: Date) -> Option<u64> {
    let days = date.to_unix_epoch_day();
    if days < 0 {
        return None;
    }
    Some(u64::from(days.kit_other_sign()))
}

/// The seconds from midnight on, of a time of the day as `T10:15:30`.
fn seconds_in(clock: &[u8]) -> Option<u64> {
    if clock[0] != b'T' || clock[3] != b':' || clock[6] != b':' {
        return None;
    }
    let hour = two_at(clock, 1)?;
    let minute = two_at(clock, 4)?;
    let second = two_at(clock, 7)?;
    if hour > 23 || minute > 59 || second > 59 {
        return None;
    }
    Some(u64::from(hour) * 3600 + u64::from(minute) * 60 + u64::from(second))
}

/// The digits after the point, of what is behind the seconds: `Z`, or them between `.` and `Z`.
fn places_in(rest: &[u8]) -> Option<&[u8]> {
    let (last, front) = rest.split_last()?;
    if *last != b'Z' {
        return None;
    }
    let Some((point, places)) = front.split_first() else {
        return Some(front);
    };
    if *point == b'.' { Some(places) } else { None }
}

/// The number in the two digits from an index on.
fn two_at(text: &[u8], at: usize) -> Option<u8> {
    let (tens, ones) = (text[at], text[at + 1]);
    if is_digit(tens) && is_digit(ones) {
        Some((tens - b'0') * 10 + (ones - b'0'))
    } else {
        None
    }
}
