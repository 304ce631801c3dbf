// Written by dist/erase from crates/cqlp_build/src/content.rt.
//! What a field holds, as the values that it is in frames.

use crate::kit_std::prelude::{String, Vec};
use crate::cqlp_build::item::Content;
use crate::cqlp_message::OwnedBound;
use crate::cqlp_note::Address;

/// What a field may hold.
pub(crate) trait FromContent: Sized {
    /// The value, if it is such a one.
    fn of(content: Content) -> Option<Self>;

    /// Some value, for where none was found.
    fn none() -> Self;
}

impl FromContent for u8 {
    fn of(content: Content) -> Option<Self> {
        match content {
            Content::Byte(value) => Some(value),
            _ => None,
        }
    }

    fn none() -> Self {
        0
    }
}

impl FromContent for u16 {
    fn of(content: Content) -> Option<Self> {
        match content {
            Content::Short(value) => Some(value),
            _ => None,
        }
    }

    fn none() -> Self {
        0
    }
}

impl FromContent for i32 {
    fn of(content: Content) -> Option<Self> {
        match content {
            Content::Int(value) => Some(value),
            _ => None,
        }
    }

    fn none() -> Self {
        0
    }
}

impl FromContent for i64 {
    fn of(content: Content) -> Option<Self> {
        match content {
            Content::Long(value) => Some(value),
            _ => None,
        }
    }

    fn none() -> Self {
        0
    }
}

impl FromContent for [u8; 16] {
    fn of(content: Content) -> Option<Self> {
        match content {
            Content::Uuid(value) => Some(value),
            _ => None,
        }
    }

    fn none() -> Self {
        [0; 16]
    }
}

impl FromContent for u32 {
    fn of(content: Content) -> Option<Self> {
        match content {
            Content::Count(value) => Some(value),
            _ => None,
        }
    }

    fn none() -> Self {
        0
    }
}

impl FromContent for String {
    fn of(content: Content) -> Option<Self> {
        match content {
            Content::Text(value) => Some(value),
            _ => None,
        }
    }

    fn none() -> Self {
        String::new()
    }
}

impl FromContent for Option<Vec<u8>> {
    fn of(content: Content) -> Option<Self> {
        match content {
            Content::Bytes(value) => Some(value),
            _ => None,
        }
    }

    fn none() -> Self {
        None
    }
}

impl FromContent for OwnedBound {
    fn of(content: Content) -> Option<Self> {
        match content {
            Content::Bound(value) => Some(value),
            _ => None,
        }
    }

    fn none() -> Self {
        OwnedBound::Null
    }
}

impl FromContent for Vec<u8> {
    fn of(content: Content) -> Option<Self> {
        match content {
            Content::Bytes(value) => value,
            _ => None,
        }
    }

    fn none() -> Self {
        Vec::new()
    }
}

impl FromContent for (Address, i32) {
    fn of(content: Content) -> Option<Self> {
        match content {
            Content::Inet(address, port) => Some((address, port)),
            _ => None,
        }
    }

    fn none() -> Self {
        (Address::V4([0; 4]), 0)
    }
}
