// Written by dist/erase from crates/cqlp_capture_summary/src/summary.rt.
//! The statements of a capture.

use crate::kit_host::prelude::{KitVec, Vec};
use crate::cqlp_capture_summary::histogram::put_histogram;
use crate::cqlp_capture_summary::intervals::{add_in_interval, is_over, put_interval};
use crate::cqlp_capture_summary::lines::put_summary;
use crate::cqlp_capture_summary::name::Name;
use crate::cqlp_capture_summary::occurrence::Occurrence;
use crate::cqlp_capture_summary::recent::{Recent, fingerprint_in};
use crate::cqlp_capture_summary::row::Row;
use crate::cqlp_capture_summary::tally::{Figures, Tally, time_of};
use crate::cqlp_capture_summary::weights::{add_weight_at, lightest, raise_weight_at};
use crate::cqlp_grammar::SinkFault;
use crate::cqlp_text::{Pen, TextWriter};
use crate::kit_std::alloc::{AllocError};

/// How often the statements of a capture were asked for, and how long they took: the heaviest statements in a table of bounded size, and the others together.
/// A statement that took more than one in N of the whole time is in a table of N places. All memory is taken in `new`: for each place 15,760 bytes, and
/// 167,024 besides, or 23,664 where there are no places; 4.2 MB for 256 places.
pub struct Summary {
    statements: usize,
    /// The statements at the places that are taken.
    names: Vec<Name>,
    /// The most nanoseconds that each of these may have taken.
    weights: Vec<u64>,
    /// One for each place that is taken: memory for those that are free is not touched.
    tallies: Vec<Tally>,
    /// One, of all other statements.
    others: Vec<Tally>,
    /// By the hash of a name, where it was seen last. A name that is not there is sought at each place.
    slots: Vec<usize>,
    /// By the hash of a name, the one that came last, with its fingerprint; none where there are no places.
    recent: Vec<Recent>,
}

/// How many slots there are.
const SLOTS: usize = 1024;

/// How many names are kept with their fingerprints.
const RECENT: usize = 256;

impl Summary {
    /// Nothing is noted. At most so many statements have places. All memory is taken here, in six requests, or in two where there are no places.
    pub fn new(statements: usize) -> Result<Self, AllocError> {
        Ok(Summary {
            statements,
            names: Vec::kit_with_capacity(statements)?,
            weights: Vec::kit_with_capacity(statements)?,
            tallies: Vec::kit_with_capacity(statements)?,
            others: make_others()?,
            slots: make_slots()?,
            recent: make_recent(if statements == 0 { 0 } else { RECENT })?,
        })
    }

    /// Counts one time that a statement was asked for and answered.
    pub fn note(&mut self, occurrence: &Occurrence<'_>) {
        self.note_request(occurrence, true, None);
    }

    /// Counts one time that a statement was asked for: whether it was answered, and when it was asked for, in nanoseconds since some moment.
    pub fn note_request(&mut self, occurrence: &Occurrence<'_>, is_answered: bool, at: Option<u64>) {
        let name = Name::new(occurrence.name, occurrence.is_whole_name);
        self.note_named(name, occurrence, is_answered, at);
    }

    /// Likewise, under the fingerprint of the statement's name.
    pub fn note_by_fingerprint(
        &mut self,
        occurrence: &Occurrence<'_>,
        is_answered: bool,
        at: Option<u64>,
    )
    {
        let name = fingerprint_in(&mut self.recent, occurrence.name, occurrence.is_whole_name);
        self.note_named(name, occurrence, is_answered, at);
    }

    /// Counts one time that the statement of a name was asked for.
    fn note_named(
        &mut self,
        name: Name,
        occurrence: &Occurrence<'_>,
        is_answered: bool,
        at: Option<u64>,
    )
    {
        let slot = name.slot();
        match self.place_for(name) {
            Some(place) => {
                self.slots[slot] = place;
                self.add_at(place, occurrence, is_answered, at);
            }
            None => self.others[0].add_request(occurrence, is_answered, at),
        }
    }

    /// Counts one time that the statement at a place was asked for.
    fn add_at(
        &mut self,
        place: usize,
        occurrence: &Occurrence<'_>,
        is_answered: bool,
        at: Option<u64>,
    )
    {
        add_weight_at(&mut self.weights, place, time_of(occurrence.took));
        self.tallies[place].add_request(occurrence, is_answered, at);
    }

    /// The place where a statement is counted, which takes it in if it is not in the table.
    fn place_for(&mut self, name: Name) -> Option<usize> {
        match self.find(&name) {
            Some(at) => Some(at),
            None => self.take_in(name),
        }
    }

    /// The place of a statement that is in the table.
    fn find(&self, name: &Name) -> Option<usize> {
        let seen = self.slots[name.slot()];
        if seen < self.names.len() && self.names[seen].is(name) {
            return Some(seen);
        }
        position_of(&self.names, name)
    }

    /// Takes a statement in, at a free place or at that of the lightest.
    fn take_in(&mut self, name: Name) -> Option<usize> {
        let place = self.names.len();
        if place < self.statements {
            self.kit_push(name);
            return Some(place);
        }
        let at = lightest(&self.weights)?;
        self.replace(at, name);
        Some(at)
    }

    /// Takes a statement in at a free place.
    fn kit_push(&mut self, name: Name) {
        self.names.push_reserved(name);
        self.weights.push_reserved(0);
        self.tallies.push_reserved(Tally::new());
    }

    /// Takes a statement in at a place whose counts go to the others.
    fn replace(&mut self, at: usize, name: Name) {
        self.others[0].merge(&self.tallies[at]);
        self.tallies[at].clear();
        self.names[at] = name;
    }

    /// Counts what was counted of a name elsewhere: at its place, at a free one, or at that of the lightest, whose counts go to the others. There it took at
    /// most so many nanoseconds, and before at most `before` where it has no place yet. Answers its place.
    pub fn add(
        &mut self,
        name: &[u8],
        is_whole: bool,
        counts: &Tally,
        most: u64,
        before: u64,
    ) -> Option<usize> {
        let name = Name::new(name, is_whole);
        let before = if self.find(&name).is_some() {
            0
        } else {
            before
        };
        let place = self.place_for(name);
        self.add_counts(place, counts, most, before);
        place
    }

    fn add_counts(&mut self, place: Option<usize>, counts: &Tally, most: u64, before: u64) {
        match place {
            Some(place) => self.add_counts_at(place, counts, most, before),
            None => self.add_others(counts),
        }
    }

    fn add_counts_at(&mut self, place: usize, counts: &Tally, most: u64, before: u64) {
        raise_weight_at(&mut self.weights, place, before, most);
        self.tallies[place].merge(counts);
    }

    /// Counts what was counted elsewhere of all other names.
    pub fn add_others(&mut self, counts: &Tally) {
        self.others[0].merge(counts);
    }

    /// The most nanoseconds that a statement may have taken that gave up its place; 0 where there are free ones.
    pub fn given_up(&self) -> u64 {
        if self.names.len() < self.statements {
            return 0;
        }
        match lightest(&self.weights) {
            Some(at) => self.weights[at],
            None => 0,
        }
    }

    /// The statement at a place may have taken so many nanoseconds more.
    pub fn add_weight(&mut self, place: usize, more: u64) {
        add_weight_at(&mut self.weights, place, more);
    }

    /// Whether the interval of so many seconds in which the others are counted is over, before a request that was over at this time. Where nothing is counted
    /// it is.
    pub fn is_over(&self, seconds: u32, at: Option<u64>) -> bool {
        is_over(seconds, at, &self.others[0])
    }

    /// Counts a request among the others, which was over at this time. Those of an interval that is over are not counted any more.
    pub fn note_in_interval(
        &mut self,
        seconds: u32,
        occurrence: &Occurrence<'_>,
        is_answered: bool,
        at: Option<u64>,
    )
    {
        add_in_interval(&mut self.others[0], seconds, occurrence, is_answered, at);
    }

    /// Writes the line of the interval of so many seconds in which the others are counted, or the line above all of them where none is counted.
    pub fn put_interval<P: Pen>(
        &self,
        writer: &mut TextWriter<P>,
        seconds: u32,
    ) -> Result<(), SinkFault> {
        put_interval(writer, seconds, &self.others[0])
    }

    /// Writes how many of the others took how long, in ranges of time that double.
    pub fn put_histogram<P: Pen>(&self, writer: &mut TextWriter<P>) -> Result<(), SinkFault> {
        put_histogram(writer, &self.others[0])
    }

    /// How many statements are in the table.
    pub fn len(&self) -> usize {
        self.names.len()
    }

    /// What is shown of the statement at a place.
    pub fn row(&self, place: usize) -> Option<Row<'_>> {
        if place >= self.names.len() {
            return None;
        }
        let (name, tally) = (&self.names[place], &self.tallies[place]);
        Some(Row {
            name: name.as_slice(),
            is_whole_name: name.is_whole(),
            missing: self.weights[place].saturating_sub(tally.time()),
            figures: tally.figures(),
            buckets: tally.buckets(),
        })
    }

    /// Whether there are no other statements.
    pub fn has_no_others(&self) -> bool {
        self.others[0].count() == 0
    }

    /// What is counted of all other statements.
    pub fn others(&self) -> Figures {
        self.others[0].figures()
    }

    /// How many of their times are in each of the 1,920 buckets.
    pub fn others_buckets(&self) -> &[u64] {
        self.others[0].buckets()
    }

    /// Writes a line for each statement, the one that took most time in sum first, and a line for all others. Above the names is this heading.
    pub fn put<P: Pen>(&self, writer: &mut TextWriter<P>, heading: &str) -> Result<(), SinkFault> {
        put_summary(
            writer,
            heading,
            &self.names,
            &self.weights,
            &self.tallies,
            &self.others[0],
        )
    }
}

/// The place of a name, if it is among them.
fn position_of(names: &[Name], name: &Name) -> Option<usize> {
    names.iter().position(|known| known.is(name))
}

fn make_slots() -> Result<Vec<usize>, AllocError> {
    let mut slots = Vec::kit_with_capacity(SLOTS)?;
    for _ in 0..SLOTS {
        slots.push_reserved(0);
    }
    Ok(slots)
}

fn make_recent(count: usize) -> Result<Vec<Recent>, AllocError> {
    let mut recent = Vec::kit_with_capacity(count)?;
    for _ in 0..count {
        recent.push_reserved(Recent::new(Name::new(b"", true)));
    }
    Ok(recent)
}

fn make_others() -> Result<Vec<Tally>, AllocError> {
    let mut others = Vec::kit_with_capacity(1)?;
    others.push_reserved(Tally::new());
    Ok(others)
}
