// Written by dist/erase from crates/cqlp_observer/src/missed.rt.
//! What an observer of a connection did not see, or gave up.

use crate::cqlp_observer::opening::Opening;

/// What an observer of a connection did not see, or gave up. A number stays at 2^64 - 1 once it is there.
#[derive(Clone, Copy, Debug, PartialEq, Eq)]
pub struct Missed {
    /// Messages that were reported alone since there was no room for one more that waits.
    pub overtaken: u64,
    /// Messages of which the header alone was kept since there was no room for their text.
    pub texts: u64,
    /// Gaps: places where bytes of a direction did not come.
    pub gaps: u64,
    /// Directions that began with a frame of version 1, 2, 3, 5 or 6 of the protocol.
    pub other_versions: u64,
    /// Directions that began with a record of TLS.
    pub tls: u64,
    /// Directions that began with a request or a response of HTTP.
    pub http: u64,
}

impl Missed {
    /// Nothing was missed.
    pub const NONE: Missed = Missed {
        overtaken: 0,
        texts: 0,
        gaps: 0,
        other_versions: 0,
        tls: 0,
        http: 0,
    };

    /// Adds what was missed of another connection.
    pub fn add(&mut self, other: &Missed) {
        self.overtaken = self.overtaken.saturating_add(other.overtaken);
        self.texts = self.texts.saturating_add(other.texts);
        self.gaps = self.gaps.saturating_add(other.gaps);
        self.other_versions = self.other_versions.saturating_add(other.other_versions);
        self.tls = self.tls.saturating_add(other.tls);
        self.http = self.http.saturating_add(other.http);
    }

    /// Counts a message that is reported alone since there is no room for it.
    pub(crate) fn count_overtaken(&mut self) {
        self.overtaken = self.overtaken.saturating_add(1);
    }

    /// Counts a message of which the header alone is kept.
    pub(crate) fn count_text(&mut self) {
        self.texts = self.texts.saturating_add(1);
    }

    /// Counts a gap.
    pub(crate) fn count_gap(&mut self) {
        self.gaps = self.gaps.saturating_add(1);
    }

    /// Counts what a direction begins with, where that is no frame of version 4.
    pub(crate) fn count_opening(&mut self, opening: Opening) {
        match opening {
            Opening::Frames => {}
            Opening::OtherVersion(_) => self.other_versions = self.other_versions.saturating_add(1),
            Opening::Tls => self.tls = self.tls.saturating_add(1),
            Opening::Http => self.http = self.http.saturating_add(1),
        }
    }
}
