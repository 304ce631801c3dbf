//! What a program has of the kit and a library has not: a runtime, files, sockets, words; and what the kit's clap has of std.
pub mod calendar;
pub mod env;
pub mod fs;
pub mod items;
pub mod net;
pub mod rt;
pub mod text;

pub mod prelude {
    pub(crate) use super::items::made_items as vec;
    pub use super::rt::{Eprint, HostRuntime, Print};
    pub(crate) use super::rt::{said as print, said_in_line as println, said_of_fault as eprintln};
    pub(crate) use super::text::made_text as format;
    pub use super::text::{KitText, ToText};
    pub use crate::kit_std::prelude::{Box, KitBox, KitNumber, KitString, KitVec, String, Vec};
}
