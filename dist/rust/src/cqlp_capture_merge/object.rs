// Written by dist/erase from crates/cqlp_capture_merge/src/object.rt.
//! An object of a summary, as `put_summary_objects` of `cqlp_capture_exchanges` writes it.

use crate::kit_host::prelude::{String};
use crate::cqlp_capture_summary::{Figures, Tally, Times};
use crate::cqlp_options::{AskedTime, asked_time};
use crate::json::Value;

/// It is no such object.
#[derive(Clone, Copy)]
pub(crate) struct NoObject;

/// What an object says of a name, but for the buckets of its times.
#[derive(Clone, Copy)]
pub(crate) struct Entry<'a> {
    /// What the name is of.
    pub by: &'static str,
    /// None of all other names.
    pub name: Option<&'a str>,
    pub is_whole_name: bool,
    pub figures: Figures,
    /// The most nanoseconds that it may have taken before.
    pub missing: u64,
}

impl<'a> Entry<'a> {
    pub(crate) fn of(value: &Value<'a>) -> Result<Entry<'a>, NoObject> {
        Ok(Entry {
            by: heading_of(value)?,
            name: name_of(value)?,
            is_whole_name: flag_of(value, "name_is_whole")?,
            figures: figures_of(value)?,
            missing: seconds_of(value, "missing")?,
        })
    }

    /// The most nanoseconds that the name took in the capture.
    pub(crate) fn most(&self) -> u64 {
        self.figures.time.saturating_add(self.missing)
    }
}

fn member<'v, 'a>(
    value: &'v Value<'a>,
    name: &str,
) -> Result<&'v Value<'a>, NoObject> {
    value.get(name).ok_or(NoObject)
}

fn heading_of(value: &Value<'_>) -> Result<&'static str, NoObject> {
    let by = member(value, "by")?.as_str().ok_or(NoObject)?;
    heading_named(by).ok_or(NoObject)
}

/// What requests are counted by under this name.
fn heading_named(by: &str) -> Option<&'static str> {
    match by {
        "statement" => Some("statement"),
        "table" => Some("table"),
        "client" => Some("client"),
        "node" => Some("node"),
        "opcode" => Some("opcode"),
        "error" => Some("error"),
        _ => None,
    }
}

fn name_of<'a>(value: &Value<'a>) -> Result<Option<&'a str>, NoObject> {
    match member(value, "name")? {
        Value::Null => Ok(None),
        Value::String(text) => Ok(Some(*text)),
        _ => Err(NoObject),
    }
}

fn flag_of(value: &Value<'_>, name: &str) -> Result<bool, NoObject> {
    match member(value, name)? {
        Value::Bool(flag) => Ok(*flag),
        _ => Err(NoObject),
    }
}

fn figures_of(value: &Value<'_>) -> Result<Figures, NoObject> {
    Ok(Figures {
        count: number_of(member(value, "count")?)?,
        errors: number_of(member(value, "errors")?)?,
        unanswered: number_of(member(value, "unanswered")?)?,
        rows: number_of(member(value, "rows")?)?,
        bytes: number_of(member(value, "bytes")?)?,
        first: utc_of(value, "first")?,
        last: utc_of(value, "last")?,
        time: seconds_of(value, "time")?,
        times: times_of(value)?,
    })
}

fn times_of(value: &Value<'_>) -> Result<Option<Times>, NoObject> {
    if let Value::Null = member(value, "max")? {
        return Ok(None);
    }
    Ok(Some(Times {
        median: seconds_of(value, "p50")?,
        percentile_95: seconds_of(value, "p95")?,
        percentile_99: seconds_of(value, "p99")?,
        greatest: seconds_of(value, "max")?,
    }))
}

/// A number, which is between quotes above 2^53.
fn number_of(value: &Value<'_>) -> Result<u64, NoObject> {
    match value {
        Value::String(text) => whole_number(text.as_bytes()).ok_or(NoObject),
        _ => value.as_u64().ok_or(NoObject),
    }
}

/// The number that decimal digits write.
fn whole_number(digits: &[u8]) -> Option<u64> {
    if digits.is_empty() {
        return None;
    }
    let mut number: u64 = 0;
    for digit in digits {
        if *digit < b'0' || *digit > b'9' {
            return None;
        }
        number = number
            .checked_mul(10)?
            .checked_add(u64::from(*digit - b'0'))?;
    }
    Some(number)
}

/// Nanoseconds, of a member in seconds.
fn seconds_of(value: &Value<'_>, name: &str) -> Result<u64, NoObject> {
    nanoseconds_of(member(value, name)?)
}

/// Nanoseconds, of seconds that are between quotes where they have more than 2^53 of them.
fn nanoseconds_of(value: &Value<'_>) -> Result<u64, NoObject> {
    match value {
        Value::Number(text) => nanoseconds_in(*text),
        Value::String(text) => nanoseconds_in(*text),
        _ => Err(NoObject),
    }
}

fn nanoseconds_in(text: &str) -> Result<u64, NoObject> {
    match asked_time(text.as_bytes()) {
        Some(AskedTime::After(nanoseconds)) => Ok(nanoseconds),
        _ => Err(NoObject),
    }
}

/// Nanoseconds since 1970-01-01 00:00:00 UTC, of a member that is a date and a time of day, or null.
fn utc_of(value: &Value<'_>, name: &str) -> Result<Option<u64>, NoObject> {
    match member(value, name)? {
        Value::Null => Ok(None),
        Value::String(text) => match asked_time(text.as_bytes()) {
            Some(AskedTime::At(nanoseconds)) => Ok(Some(nanoseconds)),
            _ => Err(NoObject),
        },
        _ => Err(NoObject),
    }
}

/// Counts the times of the buckets of an object, each a pair of the greatest time that it may have and how many it has.
pub(crate) fn add_buckets(
    counts: &mut Tally,
    value: &Value<'_>,
) -> Result<(), NoObject> {
    let Value::Array(buckets) = member(value, "buckets")? else {
        return Err(NoObject);
    };
    for place in 0..buckets.len() {
        add_bucket(counts, &buckets[place])?;
    }
    Ok(())
}

fn add_bucket(counts: &mut Tally, pair: &Value<'_>) -> Result<(), NoObject> {
    let greatest = nanoseconds_of(pair.at(0).ok_or(NoObject)?)?;
    let count = number_of(pair.at(1).ok_or(NoObject)?)?;
    if pair.at(2).is_some() {
        return Err(NoObject);
    }
    match counts.add_times(greatest, count) {
        Some(_) => Ok(()),
        None => Err(NoObject),
    }
}
