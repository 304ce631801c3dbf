// Written by dist/erase from crates/cqlp_options/src/merge.rt.
//! What is asked for with summaries.

use crate::kit_host::prelude::{KitVec, Vec};
use crate::cqlp_options::bad_value::NoLine;
use crate::cqlp_options::capture::files_of;
use crate::cqlp_options::matched::flag;
use crate::clap::ArgMatches;

/// How the sum of summaries is written.
#[derive(Clone, Copy)]
pub enum SumAs {
    /// As a table.
    Table,
    /// A JSON object for each name, in a line.
    Json,
}

impl SumAs {
    fn matched(matches: &ArgMatches<'_>) -> SumAs {
        if flag(matches, "json") {
            SumAs::Json
        } else {
            SumAs::Table
        }
    }
}

/// A task with summaries, which are added.
pub struct MergeOptions<'a> {
    pub form: SumAs,
    /// The path of the first file, or `-` for standard input, which goes alone.
    pub file: &'a str,
    /// The paths of further files, in order.
    pub more: Vec<&'a str>,
}

impl<'a> MergeOptions<'a> {
    /// What the words were matched to, if standard input goes alone.
    pub(crate) fn matched(
        matches: &ArgMatches<'a>,
    ) -> Result<MergeOptions<'a>, NoLine> {
        let (file, others) = files_of(matches)?;
        let form = SumAs::matched(matches);
        let mut more = Vec::new();
        more.kit_extend_from_slice(others)?;
        Ok(MergeOptions { form, file, more })
    }
}
