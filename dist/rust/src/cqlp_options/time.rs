// Written by dist/erase from crates/cqlp_options/src/time.rt.
//! Times that are asked for.

use crate::cqlp_options::calendar::nanoseconds_at;
use crate::cqlp_options::matched::path;
use crate::clap::ArgMatches;

/// A time that is asked for.
#[derive(Clone, Copy)]
pub enum AskedTime {
    /// So many nanoseconds after the capture's first packet.
    After(u64),
    /// So many nanoseconds after 1970-01-01 00:00:00 UTC.
    At(u64),
}

/// A text is no time.
#[derive(Clone, Copy)]
pub(crate) struct NoTime;

/// The time that an option gives, if it is given.
pub(crate) fn time(matches: &ArgMatches<'_>, option: &str) -> Result<Option<AskedTime>, NoTime> {
    match path(matches, option) {
        Some(text) => {
            let time = asked_time(text.as_bytes()).ok_or(NoTime)?;
            Ok(Some(time))
        }
        None => Ok(None),
    }
}

/// The time in a text, in seconds or of the calendar.
pub fn asked_time(text: &[u8]) -> Option<AskedTime> {
    if let Some(nanoseconds) = nanoseconds_of(text) {
        return Some(AskedTime::After(nanoseconds));
    }
    let nanoseconds = nanoseconds_at(text)?;
    Some(AskedTime::At(nanoseconds))
}

/// The nanoseconds in so many seconds, with up to nine digits after the point.
fn nanoseconds_of(text: &[u8]) -> Option<u64> {
    let [first, rest @ ..] = text else {
        return None;
    };
    if is_digit(*first) {
        with_digits(u64::from(*first - b'0'), rest)
    } else {
        None
    }
}

pub(crate) fn is_digit(c: u8) -> bool {
    b'0' <= c && c <= b'9'
}

/// A number, with one more digit.
fn with_digit(n: u64, c: u8) -> Option<u64> {
    n.checked_mul(10)?.checked_add(u64::from(c - b'0'))
}

/// The nanoseconds in these seconds, with further digits.
fn with_digits(whole: u64, text: &[u8]) -> Option<u64> {
    let mut n = whole;
    for at in 0..text.len() {
        let c = text[at];
        if c == b'.' {
            return with_places(n, &text[at + 1..]);
        }
        if !is_digit(c) {
            return None;
        }
        n = with_digit(n, c)?;
    }
    with_places(n, &[])
}

/// The nanoseconds in these seconds, with these digits behind the point.
pub(crate) fn with_places(whole: u64, text: &[u8]) -> Option<u64> {
    let mut n = whole;
    let mut places: u32 = 9;
    for at in 0..text.len() {
        let c = text[at];
        if !is_digit(c) || places == 0 {
            return None;
        }
        places -= 1;
        n = with_digit(n, c)?;
    }
    n.checked_mul(10_u64.checked_pow(places)?)
}
