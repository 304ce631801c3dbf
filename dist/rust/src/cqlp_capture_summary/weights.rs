// Written by dist/erase from crates/cqlp_capture_summary/src/weights.rt.
//! Weights of statements: the most nanoseconds that each may have taken.

/// The first place of the least weight, if there is one.
pub(crate) fn lightest(weights: &[u64]) -> Option<usize> {
    let mut least = *weights.first()?;
    let mut best = 0;
    for (place, weight) in weights.iter().enumerate() {
        if *weight < least {
            least = *weight;
            best = place;
        }
    }
    Some(best)
}

/// Adds nanoseconds to the weight at a place.
pub(crate) fn add_weight_at(weights: &mut [u64], at: usize, took: u64) {
    if at < weights.len() {
        weights[at] = weights[at].saturating_add(took);
    }
}

/// Has the weight at a place be at least this before, and adds nanoseconds to it.
pub(crate) fn raise_weight_at(weights: &mut [u64], at: usize, before: u64, most: u64) {
    if at < weights.len() {
        weights[at] = weights[at].max(before).saturating_add(most);
    }
}
