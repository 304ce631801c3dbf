// Written by dist/erase from crates/cqlp_capture_prepared/src/latest.rt.
//! Values under their keys, of which the latest stay.

use crate::kit_host::prelude::{KitVec, Vec};
use crate::cqlp_capture_prepared::error::NewPreparedError;

/// Values under their keys, at most as many as the limit: the one that was put or used last comes first, and where all places are taken the
/// one goes that was put or used longest ago. All memory is taken in `new`.
pub struct Latest<K, V> {
    limit: u16,
    entries: Vec<(K, V)>,
}

impl<K: Eq, V> Latest<K, V> {
    /// None yet. At most `limit` will be, 1 to 65,535. All memory is taken here, in one request: so many times the size of a key and a value.
    pub fn new(limit: u16) -> Result<Self, NewPreparedError> {
        if limit == 0 {
            return Err(NewPreparedError::BadLimit);
        }
        Ok(Latest {
            limit,
            entries: Vec::kit_with_capacity(limit as usize)?,
        })
    }

    /// The value under a key.
    pub fn get(&self, key: &K) -> Option<&V> {
        let at = self.place_of(key)?;
        Some(&self.entries[at].1)
    }

    /// Puts a value under a key, in the place of the one that was there.
    pub fn put(&mut self, key: K, value: V) {
        let _ = self.take(&key);
        self.push_front((key, value));
    }

    /// Says of the value under a key that it is used.
    pub fn touch(&mut self, key: &K) {
        match self.place_of(key) {
            Some(at) => {
                let entry = self.entries.remove(at);
                self.push_front(entry);
            }
            None => {}
        }
    }

    /// Takes the value under a key away.
    pub fn take(&mut self, key: &K) -> Option<V> {
        let at = self.place_of(key)?;
        let (_, value) = self.entries.remove(at);
        Some(value)
    }

    /// Takes all away, and keeps the memory.
    pub fn clear(&mut self) {
        self.entries.clear();
    }

    /// The place of what is under a key.
    fn place_of(&self, key: &K) -> Option<usize> {
        self.entries.iter().position(|entry| *key == entry.0)
    }

    fn push_front(&mut self, entry: (K, V)) {
        self.entries.truncate(self.limit as usize - 1);
        self.entries.push_reserved(entry);
        self.entries.rotate_right(1);
    }
}
