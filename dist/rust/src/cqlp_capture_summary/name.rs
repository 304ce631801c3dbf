// Written by dist/erase from crates/cqlp_capture_summary/src/name.rt.
//! Names of statements.

use std::hash::{DefaultHasher, Hasher};

/// The first bytes of a statement's name.
pub(crate) struct Name {
    /// A hash of the bytes, which is compared first.
    hash: u64,
    len: usize,
    bytes: [u8; MOST],
    is_whole: bool,
}

/// How many bytes of a name are kept at most.
pub(crate) const MOST: usize = 256;

impl Name {
    /// The name of which these are the bytes, or the first ones.
    pub(crate) fn new(name: &[u8], is_whole: bool) -> Self {
        let front = &name[..name.len().min(MOST)];
        let mut bytes = [0; MOST];
        bytes[..front.len()].copy_from_slice(front);
        Name {
            hash: hash_of(front),
            len: front.len(),
            bytes,
            is_whole: is_kept_whole(name, is_whole),
        }
    }

    /// The same name once more.
    pub(crate) fn copy(&self) -> Self {
        Name {
            hash: self.hash,
            len: self.len,
            bytes: self.bytes,
            is_whole: self.is_whole,
        }
    }

    pub(crate) fn as_slice(&self) -> &[u8] {
        &self.bytes[..self.len]
    }

    pub(crate) fn is_whole(&self) -> bool {
        self.is_whole
    }

    /// A number below 1,024 by its hash.
    pub(crate) fn slot(&self) -> usize {
        (self.hash % 1024) as usize
    }

    /// Whether it is the other.
    pub(crate) fn is(&self, other: &Name) -> bool {
        self.hash == other.hash
            && self.is_whole == other.is_whole
            && self.as_slice() == other.as_slice()
    }
}

/// Whether all of a name is kept, of which these are the bytes or the first ones.
fn is_kept_whole(name: &[u8], is_whole: bool) -> bool {
    is_whole && name.len() <= MOST
}

/// A hash of bytes.
fn hash_of(bytes: &[u8]) -> u64 {
    let mut hasher = DefaultHasher::new();
    Hasher::write(&mut hasher, bytes);
    Hasher::finish(&hasher)
}
