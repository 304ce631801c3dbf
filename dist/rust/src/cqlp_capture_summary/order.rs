// Written by dist/erase from crates/cqlp_capture_summary/src/order.rt.
//! The order of statements.

use crate::cqlp_capture_summary::tally::Tally;

/// At how many places the ranks are known beforehand: all that a capture's summary has.
const RANKS: usize = 256;

/// The ranks of the statements at the first places.
pub(crate) fn ranks_of(tallies: &[Tally]) -> [usize; RANKS] {
    let mut ranks = [0; RANKS];
    for place in 0..tallies.len().min(RANKS) {
        ranks[place] = rank_of(tallies, place);
    }
    ranks
}

/// The rank of the statement at a place.
pub(crate) fn rank_at(ranks: &[usize], tallies: &[Tally], place: usize) -> usize {
    if place < ranks.len() {
        ranks[place]
    } else {
        rank_of(tallies, place)
    }
}

/// How many of them come before the one at a place: those that took more time in sum, and of those that took as much the ones in front of it.
fn rank_of(tallies: &[Tally], place: usize) -> usize {
    let time = tallies[place].time();
    count_as_dear(&tallies[..place], time) + count_dearer(&tallies[place..], time)
}

/// How many took at least so much time.
fn count_as_dear(tallies: &[Tally], time: u64) -> usize {
    tallies.iter().filter(|one| one.time() >= time).count()
}

/// How many took more time.
fn count_dearer(tallies: &[Tally], time: u64) -> usize {
    tallies.iter().filter(|one| one.time() > time).count()
}
