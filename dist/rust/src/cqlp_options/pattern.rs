// Written by dist/erase from crates/cqlp_options/src/pattern.rt.
//! The pattern that is asked for.

use crate::cqlp_options::bad_value::BadValue;
use crate::cqlp_options::matched::path;
use crate::clap::ArgMatches;
use crate::cqlp_pattern::Pattern;

/// The pattern that statements are to match, if one is given.
pub(crate) fn pattern(matches: &ArgMatches<'_>) -> Result<Option<Pattern>, BadValue> {
    match path(matches, "statement-regex") {
        Some(text) => {
            let pattern = pattern_in(text)?;
            Ok(Some(pattern))
        }
        None => Ok(None),
    }
}

/// The pattern of a text. It is out of line, since a caller's stack is touched as far as it may be needed, here for tables of 55 KB.
#[cold]
#[inline(never)]
fn pattern_in(text: &str) -> Result<Pattern, BadValue> {
    match Pattern::new(text) {
        Ok(pattern) => Ok(pattern),
        Err(bad) => Err(BadValue::Pattern {
            fault: bad.fault,
            character: bad.character(text),
        }),
    }
}
