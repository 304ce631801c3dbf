// Written by dist/erase from crates/cqlp_observer/src/kept.rt.
//! What is kept of a message.

use crate::kit_std::prelude::{Box, KitBox, KitVec, Vec};
use crate::cqlp_observer::subject::has;
use crate::cqlp_note::Header;
use crate::cqlp_observer_facts::Facts;
use crate::kit_std::alloc::{AllocError};

/// How many bytes are kept at most of a message proper, and of what lies before it.
pub const LONGEST_FRONT: usize = 256;

/// How many bytes of room a message's text takes beside its first bytes, at least: what it says, and what the allocator adds.
const TEXT_OVERHEAD: usize = 128;

/// How many bytes of room the bytes before a message take beside these, at least.
const ANNOUNCED_OVERHEAD: usize = 64;

/// What is kept of a message, as far as none of its bytes is missing before it. Without it a message has its header alone.
pub struct Kept {
    text: Option<Box<KeptText>>,
}

/// The first bytes of a message, and what it says.
pub(crate) struct KeptText {
    front: Front,
    announced: Announced,
    facts: Facts,
}

/// The first bytes that lie before a message; none are kept, and no memory is taken, where no warnings are among them.
pub(crate) type Announced = Option<Box<Front>>;

impl Kept {
    /// These first bytes of the message and before it, and what the message says.
    #[inline(always)]
    pub(crate) fn new(
        front: Front,
        announced: Announced,
        facts: Facts,
    ) -> Result<Self, AllocError> {
        let text = KeptText {
            front,
            announced,
            facts,
        };
        Ok(Kept {
            text: Some(Box::kit_new(text)?),
        })
    }

    /// Nothing. Takes no memory.
    #[inline(always)]
    pub(crate) fn bare() -> Self {
        Kept { text: None }
    }

    /// The first bytes of the message proper, at most [`LONGEST_FRONT`], behind what the header's flags announce before it: a tracing id, warnings and
    /// a custom payload. Section 2.2 of `native_protocol_v4.spec`. Where the body is compressed, its first bytes as they are. None where they were
    /// dropped.
    #[inline(always)]
    #[must_use]
    pub fn front(&self) -> &[u8] {
        match &self.text {
            Some(text) => text.front.as_slice(),
            None => &[],
        }
    }

    /// The first bytes that lie before the message proper, at most [`LONGEST_FRONT`], of a response with warnings: its tracing id, if it has one,
    /// its warnings and a custom payload. None of any other message, where the body is compressed, and where they were dropped.
    #[inline(always)]
    #[must_use]
    pub fn announced(&self) -> &[u8] {
        match &self.text {
            Some(text) => announced_bytes(&text.announced),
            None => &[],
        }
    }

    /// What the message says; nothing where the body is compressed, or where that was dropped.
    #[inline(always)]
    #[must_use]
    pub fn facts(&self) -> Facts {
        match &self.text {
            Some(text) => text.facts,
            None => Facts::new(),
        }
    }

    /// Whether the first bytes and what the message says were dropped, since there was no room for them.
    #[cfg_attr(not(feature = "cli"), inline)]
    #[must_use]
    pub fn is_text_dropped(&self) -> bool {
        self.text.is_none()
    }

    /// How many bytes of room it takes.
    #[inline(always)]
    pub(crate) fn cost(&self) -> usize {
        match &self.text {
            Some(text) => TEXT_OVERHEAD + text.front.len() + announced_cost(&text.announced),
            None => 0,
        }
    }
}

/// Whether a message with this header has warnings that are to be seen. Section 2.2 of `native_protocol_v4.spec`.
#[inline(always)]
pub(crate) fn announces_warnings(header: &Header) -> bool {
    if has(header.flags, 0x01) {
        return false;
    }
    header.response && has(header.flags, 0x08)
}

#[inline(always)]
fn announced_bytes(announced: &Announced) -> &[u8] {
    match announced {
        Some(bytes) => bytes.as_slice(),
        None => &[],
    }
}

/// How many bytes of room they take.
#[inline(always)]
fn announced_cost(announced: &Announced) -> usize {
    match announced {
        Some(bytes) => ANNOUNCED_OVERHEAD + bytes.len(),
        None => 0,
    }
}

/// The first bytes of a message, or of what lies before it, at most [`LONGEST_FRONT`].
pub(crate) struct Front {
    bytes: Vec<u8>,
}

impl Front {
    /// No byte, and no memory.
    #[inline(always)]
    pub(crate) fn new() -> Self {
        Front {
            bytes: Vec::new(),
        }
    }

    #[inline(always)]
    pub(crate) fn as_slice(&self) -> &[u8] {
        &self.bytes
    }

    #[inline(always)]
    pub(crate) fn len(&self) -> usize {
        self.bytes.len()
    }

    /// Keeps as many of these bytes behind the others as there is room for. Takes memory for these alone.
    #[cfg_attr(not(feature = "cli"), inline)]
    pub(crate) fn add(&mut self, input: &[u8]) -> Result<(), AllocError> {
        let moved = input.len().min(256 - self.bytes.len());
        self.bytes.kit_reserve_exact(moved)?;
        self.bytes.kit_extend_from_slice(&input[..moved])
    }
}
