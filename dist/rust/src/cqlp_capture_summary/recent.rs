// Written by dist/erase from crates/cqlp_capture_summary/src/recent.rt.
//! Fingerprints of names that were seen last.

use crate::cqlp_capture_summary::fingerprint::Fingerprint;
use crate::cqlp_capture_summary::name::{MOST, Name};

/// A name and its fingerprint, which is not read again while the name comes again.
pub(crate) struct Recent {
    name: Name,
    fingerprint: Name,
}

impl Recent {
    pub(crate) fn new(name: Name) -> Self {
        let fingerprint = fingerprint(name.as_slice(), name.is_whole());
        Recent { name, fingerprint }
    }

    fn is_of(&self, name: &Name) -> bool {
        self.name.is(name)
    }

    fn fingerprint(&self) -> Name {
        self.fingerprint.copy()
    }
}

fn fingerprint(name: &[u8], is_whole: bool) -> Name {
    let fingerprint = Fingerprint::new(name, is_whole);
    Name::new(fingerprint.as_slice(), fingerprint.is_whole())
}

/// The fingerprint of a name of which these are the bytes, or the first ones. One that is kept whole is not read again if it was the last one at its place.
pub(crate) fn fingerprint_in(recent: &mut [Recent], name: &[u8], is_whole: bool) -> Name {
    if name.len() > MOST {
        return fingerprint(name, is_whole);
    }
    let kept = Name::new(name, is_whole);
    match recent.get_mut(kept.slot() / 4) {
        Some(known) => fingerprint_at(known, kept),
        None => fingerprint(name, is_whole),
    }
}

fn fingerprint_at(known: &mut Recent, name: Name) -> Name {
    if !known.is_of(&name) {
        *known = Recent::new(name);
    }
    known.fingerprint()
}
