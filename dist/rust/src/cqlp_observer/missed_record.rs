// Written by dist/erase from crates/cqlp_observer/src/missed_record.rt.
//! What was missed of one connection, in fewer bytes.

use crate::kit_std::prelude::{Box, KitBox};
use crate::cqlp_observer::missed::Missed;
use crate::cqlp_observer::opening::Opening;
use crate::kit_std::alloc::{AllocError};

/// The greatest number that takes no memory.
const MOST: u64 = 65_535;

/// What was missed of one connection, as it is kept while that goes on: 16 bytes in place of 48, and memory once a number is past 65,535.
pub(crate) struct MissedRecord {
    counts: Counts,
}

/// What was missed, in numbers.
pub(crate) enum Counts {
    /// None is past 65,535.
    Few {
        overtaken: u16,
        texts: u16,
        gaps: u16,
        other_versions: u16,
        tls: u16,
        http: u16,
    },
    Many {
        missed: Box<Missed>,
    },
}

impl MissedRecord {
    /// Nothing was missed. Takes no memory.
    #[cfg_attr(not(feature = "cli"), inline)]
    pub(crate) fn new() -> Self {
        MissedRecord {
            counts: Counts::Few {
                overtaken: 0,
                texts: 0,
                gaps: 0,
                other_versions: 0,
                tls: 0,
                http: 0,
            },
        }
    }

    /// The numbers.
    #[cfg_attr(not(feature = "cli"), inline)]
    pub(crate) fn missed(&self) -> Missed {
        match &self.counts {
            Counts::Few {
                overtaken,
                texts,
                gaps,
                other_versions,
                tls,
                http,
            } => Missed {
                overtaken: (*overtaken).into(),
                texts: (*texts).into(),
                gaps: (*gaps).into(),
                other_versions: (*other_versions).into(),
                tls: (*tls).into(),
                http: (*http).into(),
            },
            Counts::Many { missed } => **missed,
        }
    }

    /// Counts a message that is reported alone since there is no room for it.
    #[cfg_attr(not(feature = "cli"), inline)]
    pub(crate) fn count_overtaken(&mut self) -> Result<(), AllocError> {
        let mut missed = self.missed();
        missed.count_overtaken();
        self.set(missed)
    }

    /// Counts a message of which the header alone is kept.
    #[cfg_attr(not(feature = "cli"), inline)]
    pub(crate) fn count_text(&mut self) -> Result<(), AllocError> {
        let mut missed = self.missed();
        missed.count_text();
        self.set(missed)
    }

    /// Counts a gap.
    #[cfg_attr(not(feature = "cli"), inline)]
    pub(crate) fn count_gap(&mut self) -> Result<(), AllocError> {
        let mut missed = self.missed();
        missed.count_gap();
        self.set(missed)
    }

    /// Counts what a direction begins with, where that is no frame of version 4.
    #[cfg_attr(not(feature = "cli"), inline)]
    pub(crate) fn count_opening(&mut self, opening: Opening) -> Result<(), AllocError> {
        match opening {
            Opening::Frames => Ok(()),
            _ => {
                let mut missed = self.missed();
                missed.count_opening(opening);
                self.set(missed)
            }
        }
    }

    /// These are the numbers.
    #[cfg_attr(not(feature = "cli"), inline)]
    fn set(&mut self, missed: Missed) -> Result<(), AllocError> {
        self.counts = counts_of(missed)?;
        Ok(())
    }
}

/// The numbers, in a box if one is past 65,535.
#[cfg_attr(not(feature = "cli"), inline)]
fn counts_of(missed: Missed) -> Result<Counts, AllocError> {
    let Missed {
        overtaken,
        texts,
        gaps,
        other_versions,
        tls,
        http,
    } = missed;
    if overtaken <= MOST
        && texts <= MOST
        && gaps <= MOST
        && other_versions <= MOST
        && tls <= MOST
        && http <= MOST
    {
        Ok(Counts::Few {
            overtaken: overtaken as u16,
            texts: texts as u16,
            gaps: gaps as u16,
            other_versions: other_versions as u16,
            tls: tls as u16,
            http: http as u16,
        })
    } else {
        Ok(Counts::Many {
            missed: Box::kit_new(missed)?,
        })
    }
}
