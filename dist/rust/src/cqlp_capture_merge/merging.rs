// Written by dist/erase from crates/cqlp_capture_merge/src/merging.rt.
//! The summary that objects are added to.

use crate::kit_host::prelude::{Vec, vec};
use crate::cqlp_capture_merge::object::{Entry, NoObject, add_buckets};
use crate::cqlp_capture_summary::{Summary, Tally};
use crate::json::Value;
use crate::kit_std::alloc::{AllocError};

/// How many names have places.
pub(crate) const PLACES: usize = 1024;

/// The summary that the objects of files are added to, and what may be missing of its names. All memory is taken in `new`.
pub(crate) struct Merging {
    summary: Summary,
    /// For each place the number of the last file in which its name was.
    files: Vec<u64>,
    /// The number of this file, counted from 1.
    file: u64,
    /// What an object counts.
    counts: Tally,
    /// The most nanoseconds that a name without a place took in the files before this one.
    before: u64,
    /// The least time that a name of this file may have taken.
    least: u64,
    /// Nanoseconds of the others of this file.
    others: u64,
}

impl Merging {
    pub(crate) fn new() -> Result<Self, AllocError> {
        Ok(Merging {
            summary: Summary::new(PLACES)?,
            files: vec![0; PLACES]?,
            file: 1,
            counts: Tally::new(),
            before: 0,
            least: u64::MAX,
            others: 0,
        })
    }

    pub(crate) fn summary(&self) -> &Summary {
        &self.summary
    }

    /// Adds an object of this file, of which this is what it says of its name.
    pub(crate) fn add(
        &mut self,
        entry: &Entry<'_>,
        value: &Value<'_>,
    ) -> Result<(), NoObject> {
        self.counts.clear();
        self.counts.set_figures(&entry.figures);
        add_buckets(&mut self.counts, value)?;
        match entry.name {
            Some(name) => self.add_name(name, entry),
            None => self.add_others(entry),
        }
        Ok(())
    }

    fn add_name(&mut self, name: &str, entry: &Entry<'_>) {
        let most = entry.most();
        self.least = self.least.min(most);
        let place = self.summary.add(
            name.as_bytes(),
            entry.is_whole_name,
            &self.counts,
            most,
            self.before,
        );
        if let Some(place) = place {
            self.note_file(place);
        }
    }

    /// The name at a place is in this file.
    fn note_file(&mut self, place: usize) {
        if place < self.files.len() {
            self.files[place] = self.file;
        }
    }

    fn add_others(&mut self, entry: &Entry<'_>) {
        self.summary.add_others(&self.counts);
        self.others = self.others.saturating_add(entry.figures.time);
    }

    /// This file is at its end. A name that is not in it may have been among its others, which took no more than each of its names: so long may be missing
    /// of it.
    pub(crate) fn end_file(&mut self) {
        let missed = self.least.min(self.others);
        self.before = self
            .before
            .max(self.summary.given_up())
            .saturating_add(missed);
        for place in 0..self.files.len() {
            if self.files[place] != self.file {
                self.summary.add_weight(place, missed);
            }
        }
        self.file = self.file.saturating_add(1);
        self.least = u64::MAX;
        self.others = 0;
    }
}
