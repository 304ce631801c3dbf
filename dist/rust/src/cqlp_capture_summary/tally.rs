// Written by dist/erase from crates/cqlp_capture_summary/src/tally.rt.
//! What is counted of a statement.

use crate::cqlp_capture_summary::buckets::{BUCKETS, bucket_of, bucket_up_to, greatest_in};
use crate::cqlp_capture_summary::occurrence::Occurrence;

/// What is counted of a statement. A number stays at 2^64 - 1 once it is there.
pub struct Tally {
    count: u64,
    errors: u64,
    unanswered: u64,
    rows: u64,
    bytes: u64,
    /// When it was first and last asked for.
    first: Option<u64>,
    last: Option<u64>,
    /// Of how many it is known how long they took.
    timed: u64,
    /// Nanoseconds that these took in sum.
    time: u64,
    /// Nanoseconds that the longest of them took.
    greatest: u64,
    /// How many of the times are in each bucket.
    buckets: [u64; BUCKETS],
    /// All of them are in the buckets from this one on and below that one.
    from: usize,
    end: usize,
}

/// The numbers of a statement as a line has them.
#[derive(Clone, Copy)]
pub struct Figures {
    pub count: u64,
    /// How many were answered by an ERROR.
    pub errors: u64,
    /// How many were not answered.
    pub unanswered: u64,
    pub rows: u64,
    pub bytes: u64,
    /// When it was first and last asked for, in nanoseconds, where that was said.
    pub first: Option<u64>,
    pub last: Option<u64>,
    /// Nanoseconds in sum.
    pub time: u64,
    /// Where one is known.
    pub times: Option<Times>,
}

/// Times of a statement, in nanoseconds.
#[derive(Clone, Copy)]
pub struct Times {
    /// The time, or at most 1/32 more, that half of them are not above.
    pub median: u64,
    /// Likewise 95 of 100.
    pub percentile_95: u64,
    /// Likewise 99 of 100.
    pub percentile_99: u64,
    pub greatest: u64,
}

impl Tally {
    /// Nothing is counted.
    pub fn new() -> Self {
        Tally {
            count: 0,
            errors: 0,
            unanswered: 0,
            rows: 0,
            bytes: 0,
            first: None,
            last: None,
            timed: 0,
            time: 0,
            greatest: 0,
            buckets: [0; BUCKETS],
            from: BUCKETS,
            end: 0,
        }
    }

    /// Nanoseconds in sum.
    pub fn time(&self) -> u64 {
        self.time
    }

    pub(crate) fn buckets(&self) -> &[u64] {
        &self.buckets
    }

    pub(crate) fn unanswered(&self) -> u64 {
        self.unanswered
    }

    /// Of how many it is known how long they took.
    pub(crate) fn timed(&self) -> u64 {
        self.timed
    }

    /// Nanoseconds that the longest of them took.
    pub(crate) fn greatest(&self) -> u64 {
        self.greatest
    }

    /// How often it was asked for.
    pub fn count(&self) -> u64 {
        self.count
    }

    /// The last time that was said.
    pub(crate) fn last(&self) -> Option<u64> {
        self.last
    }

    /// Counts one time that it was asked for.
    pub(crate) fn add(&mut self, occurrence: &Occurrence<'_>) {
        self.count = self.count.saturating_add(1);
        self.errors = self.errors.saturating_add(error_count(occurrence.is_error));
        self.rows = self.rows.saturating_add(occurrence.rows);
        self.bytes = self.bytes.saturating_add(occurrence.bytes);
        if let Some(took) = occurrence.took {
            self.add_time(took);
        }
    }

    /// Counts one that was answered or not, and asked for then.
    pub(crate) fn add_request(
        &mut self,
        occurrence: &Occurrence<'_>,
        is_answered: bool,
        at: Option<u64>,
    )
    {
        self.add(occurrence);
        self.add_answer(is_answered);
        self.see(at);
    }

    fn add_answer(&mut self, is_answered: bool) {
        if !is_answered {
            self.unanswered = self.unanswered.saturating_add(1);
        }
    }

    fn see(&mut self, at: Option<u64>) {
        if let Some(at) = at {
            self.first = earlier(self.first, Some(at));
            self.last = later(self.last, Some(at));
        }
    }

    fn add_time(&mut self, took: u64) {
        let bucket = bucket_of(took);
        self.timed = self.timed.saturating_add(1);
        self.time = self.time.saturating_add(took);
        self.greatest = self.greatest.max(took);
        self.buckets[bucket] = self.buckets[bucket].saturating_add(1);
        self.from = self.from.min(bucket);
        self.end = self.end.max(bucket + 1);
    }

    /// Has what is counted elsewhere, but for the times, whose greatest alone it takes.
    pub fn set_figures(&mut self, figures: &Figures) {
        self.count = figures.count;
        self.errors = figures.errors;
        self.unanswered = figures.unanswered;
        self.rows = figures.rows;
        self.bytes = figures.bytes;
        self.first = figures.first;
        self.last = figures.last;
        self.time = figures.time;
        self.greatest = greatest_of(figures.times);
    }

    /// Counts so many times of the bucket of which this is the greatest one, if there is such a bucket, which it answers.
    pub fn add_times(&mut self, greatest: u64, count: u64) -> Option<usize> {
        let bucket = bucket_up_to(greatest)?;
        self.add_in(bucket, count);
        Some(bucket)
    }

    fn add_in(&mut self, bucket: usize, count: u64) {
        self.timed = self.timed.saturating_add(count);
        self.buckets[bucket] = self.buckets[bucket].saturating_add(count);
        self.from = self.from.min(bucket);
        self.end = self.end.max(bucket + 1);
    }

    /// Counts what another one counted.
    pub(crate) fn merge(&mut self, more: &Tally) {
        self.count = self.count.saturating_add(more.count);
        self.errors = self.errors.saturating_add(more.errors);
        self.unanswered = self.unanswered.saturating_add(more.unanswered);
        self.rows = self.rows.saturating_add(more.rows);
        self.bytes = self.bytes.saturating_add(more.bytes);
        self.first = earlier(self.first, more.first);
        self.last = later(self.last, more.last);
        self.timed = self.timed.saturating_add(more.timed);
        self.time = self.time.saturating_add(more.time);
        self.greatest = self.greatest.max(more.greatest);
        add_buckets(&mut self.buckets, &more.buckets, more.from, more.end);
        self.from = self.from.min(more.from);
        self.end = self.end.max(more.end);
    }

    /// Counts nothing any more.
    pub fn clear(&mut self) {
        self.count = 0;
        self.errors = 0;
        self.unanswered = 0;
        self.rows = 0;
        self.bytes = 0;
        self.first = None;
        self.last = None;
        self.timed = 0;
        self.time = 0;
        self.greatest = 0;
        clear_buckets(&mut self.buckets, self.from, self.end);
        self.from = BUCKETS;
        self.end = 0;
    }

    /// The numbers of its line.
    pub(crate) fn figures(&self) -> Figures {
        Figures {
            count: self.count,
            errors: self.errors,
            unanswered: self.unanswered,
            rows: self.rows,
            bytes: self.bytes,
            first: self.first,
            last: self.last,
            time: self.time,
            times: self.times(),
        }
    }

    fn times(&self) -> Option<Times> {
        match self.timed {
            0 => None,
            timed => Some(Times {
                median: self.time_at(timed - timed / 2),
                percentile_95: self.time_at(timed - timed / 20),
                percentile_99: self.time_at(timed - timed / 100),
                greatest: self.greatest,
            }),
        }
    }

    /// The greatest time of the bucket of the time at a rank, counted from 1, or the greatest of all where that is less.
    fn time_at(&self, rank: u64) -> u64 {
        match bucket_at(&self.buckets, rank) {
            Some(bucket) => greatest_in(bucket).min(self.greatest),
            None => self.greatest,
        }
    }
}

/// Adds counts, bucket by bucket.
fn add_buckets(buckets: &mut [u64], more: &[u64], from: usize, end: usize) {
    for bucket in from..end {
        buckets[bucket] = buckets[bucket].saturating_add(more[bucket]);
    }
}

/// Sets counts to 0, bucket by bucket.
fn clear_buckets(buckets: &mut [u64], from: usize, end: usize) {
    for bucket in from..end {
        buckets[bucket] = 0;
    }
}

fn earlier(one: Option<u64>, other: Option<u64>) -> Option<u64> {
    match (one, other) {
        (None, _) => other,
        (Some(_), None) => one,
        (Some(one), Some(other)) => Some(one.min(other)),
    }
}

fn later(one: Option<u64>, other: Option<u64>) -> Option<u64> {
    match (one, other) {
        (None, _) => other,
        (Some(_), None) => one,
        (Some(one), Some(other)) => Some(one.max(other)),
    }
}

/// What is counted of a time where sums are.
pub(crate) fn time_of(took: Option<u64>) -> u64 {
    took.unwrap_or(0)
}

/// The greatest of some times, where one is known.
fn greatest_of(times: Option<Times>) -> u64 {
    match times {
        Some(times) => times.greatest,
        None => 0,
    }
}

fn error_count(is_error: bool) -> u64 {
    if is_error { 1 } else { 0 }
}

/// The bucket of the time at a rank, counted from 1.
pub(crate) fn bucket_at(buckets: &[u64], rank: u64) -> Option<usize> {
    let mut left = rank;
    for (bucket, count) in buckets.iter().enumerate() {
        if left <= *count {
            return Some(bucket);
        }
        left -= *count;
    }
    None
}
