// Written by dist/erase from crates/cqlp_type/src/open_options.rt.
//! The options around the one that is read.

use crate::kit_std::prelude::{KitVec, Vec};
use crate::cqlp_note::NoMemory;

/// An option whose inner options are read.
#[derive(Clone, Copy)]
pub(crate) struct OpenOption {
    /// The number of its node.
    node: u32,
    /// Whether its inner options have names.
    named: bool,
    /// How many of them have not begun.
    left: u16,
}

/// What goes on in the innermost of them.
#[derive(Clone, Copy)]
pub(crate) enum NextOption {
    /// An inner option, with its name before it or with none.
    Inner { named: bool },
    /// The option that begins at this node is whole, and no longer open.
    Whole(u32),
    /// None is open.
    Nothing,
}

/// The options around the one that is read, the outermost first.
pub(crate) struct OpenOptions {
    options: Vec<OpenOption>,
    room: u32,
}

impl OpenOptions {
    /// With room for this many.
    #[cfg_attr(not(feature = "cli"), inline)]
    pub(crate) fn new(room: u32) -> Result<Self, NoMemory> {
        Ok(OpenOptions {
            options: Vec::kit_with_capacity(room as usize)?,
            room,
        })
    }

    #[cfg_attr(not(feature = "cli"), inline)]
    pub(crate) fn len(&self) -> u32 {
        self.options.len() as u32
    }

    /// How many options its memory has places for: the room, for as long as it lives.
    #[cfg_attr(not(feature = "cli"), inline)]
    pub(crate) fn capacity(&self) -> usize {
        self.options.capacity()
    }

    #[cfg_attr(not(feature = "cli"), inline)]
    pub(crate) fn clear(&mut self) {
        self.options.clear();
    }

    /// Begins the inner options of the option that begins at this node.
    #[cfg_attr(not(feature = "cli"), inline)]
    pub(crate) fn kit_push(&mut self, node: u32, named: bool, left: u16) {
        self.options.push_reserved(OpenOption { node, named, left });
    }

    /// What comes next, which is no longer left then.
    #[cfg_attr(not(feature = "cli"), inline)]
    pub(crate) fn next(&mut self) -> NextOption {
        let Some(option) = self.options.pop() else {
            return NextOption::Nothing;
        };
        if option.left == 0 {
            return NextOption::Whole(option.node);
        }
        self.options.push_reserved(OpenOption {
            left: option.left - 1,
            ..option
        });
        NextOption::Inner {
            named: option.named,
        }
    }
}
