// Written by dist/erase from crates/cqlp_options/src/matched.rt.
//! What the words of a task were matched to, an option at a time.

use crate::clap::ArgMatches;

/// Whether an option that is alone is given.
pub(crate) fn flag(matches: &ArgMatches<'_>, option: &str) -> bool {
    matches.get_flag(option)
}

/// The number of an option, if it has one of 32 bits.
pub(crate) fn number(matches: &ArgMatches<'_>, option: &str) -> Option<u32> {
    matches.get_one::<u32>(option)
}

/// The number of an option, if it has one of 16 bits.
pub(crate) fn short_number(matches: &ArgMatches<'_>, option: &str) -> Option<u16> {
    matches.get_one::<u16>(option)
}

/// The number of an option, if it has one of 64 bits.
pub(crate) fn long_number(matches: &ArgMatches<'_>, option: &str) -> Option<u64> {
    matches.get_one::<u64>(option)
}

/// The path that an option names, or its text.
pub(crate) fn path<'a>(matches: &ArgMatches<'a>, option: &str) -> Option<&'a str> {
    matches.get_str(option)
}
