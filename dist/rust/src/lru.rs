//! `LruCache`, as far as it is called: a map by hash, whose entries are linked from the one that was used last.
use crate::kit_std::alloc::{AllocError, AllocFailed};
use crate::kit_std::boxed::KitBox;
use std::collections::HashMap;
use std::hash::{BuildHasher, BuildHasherDefault, Hash, Hasher, RandomState};
use std::marker::PhantomData;
use std::num::NonZeroUsize;

/// The hasher, which is std's.
pub struct DefaultHasher;

/// No entry.
const NONE: u32 = u32::MAX;

struct Entry<K, V> {
    pair: Option<Box<(K, V)>>,
    before: u32,
    after: u32,
    /// The next of those whose keys have one hash.
    same: u32,
}

/// The hash of a number that is a hash already.
#[derive(Default)]
pub struct Hashed(u64);

impl Hasher for Hashed {
    fn finish(&self) -> u64 {
        self.0
    }

    fn write_u64(&mut self, hash: u64) {
        self.0 = hash;
    }

    fn write(&mut self, _: &[u8]) {
        unreachable!("the keys are hashes")
    }
}

/// The keyed hash of what a key hashes of itself, which are numbers: each piece of at most 64 bits is folded in by a 128-bit product with the map's own
/// random number.
struct Folded {
    state: u64,
    factor: u64,
}

impl Folded {
    #[inline]
    fn fold(&mut self, piece: u64) {
        let product = u128::from(self.state ^ piece) * u128::from(self.factor);
        self.state = product as u64 ^ (product >> 64) as u64;
    }
}

impl Hasher for Folded {
    #[inline]
    fn finish(&self) -> u64 {
        self.state
    }

    #[inline]
    fn write_u16(&mut self, n: u16) {
        self.fold(n.into());
    }

    #[inline]
    fn write_u64(&mut self, n: u64) {
        self.fold(n);
    }

    #[inline]
    fn write_u128(&mut self, n: u128) {
        self.fold(n as u64);
        self.fold((n >> 64) as u64);
    }

    fn write(&mut self, _: &[u8]) {
        unreachable!("a key hashes numbers")
    }
}

pub struct LruCache<K, V, S> {
    /// Where a hash begins, and what its pieces are multiplied by: random numbers, the second of them odd.
    state: u64,
    factor: u64,
    /// By the hash of a key the first of its entries.
    places: HashMap<u64, u32, BuildHasherDefault<Hashed>>,
    entries: Vec<Entry<K, V>>,
    /// The places of entries that were taken out.
    free: Vec<u32>,
    first: u32,
    last: u32,
    hasher: PhantomData<S>,
}

impl<K: Copy + Eq + Hash, V, S> LruCache<K, V, S> {
    /// A cache that takes its memory as entries come.
    pub fn sparse(_: NonZeroUsize) -> Result<Self, AllocError> {
        let (places, entries, free) = (HashMap::default(), Vec::new(), Vec::new());
        let random = RandomState::new();
        let (state, factor) = (random.hash_one(0), random.hash_one(1) | 1);
        Ok(LruCache { state, factor, places, entries, free, first: NONE, last: NONE, hasher: PhantomData })
    }

    pub fn len(&self) -> usize {
        self.entries.len() - self.free.len()
    }

    fn pair(&self, at: u32) -> Option<(&K, &V)> {
        self.entries.get(at as usize)?.pair.as_deref().map(|(key, value)| (key, value))
    }

    /// The entry that was used last.
    pub fn peek_mru(&self) -> Option<(&K, &V)> {
        self.pair(self.first)
    }

    /// The entry that was not used longest.
    pub fn peek_lru(&self) -> Option<(&K, &V)> {
        self.pair(self.last)
    }

    #[inline]
    fn hash(&self, key: &K) -> u64 {
        let mut hasher = Folded { state: self.state, factor: self.factor };
        key.hash(&mut hasher);
        hasher.finish()
    }

    /// Where the entry of this key is. That of the entry that was used last is found without a hash.
    #[inline]
    fn place(&self, key: &K) -> Option<u32> {
        if self.pair(self.first).is_some_and(|(first, _)| first == key) {
            return Some(self.first);
        }
        let mut at = *self.places.get(&self.hash(key))?;
        while let Some((other, _)) = self.pair(at) {
            if other == key {
                return Some(at);
            }
            at = self.entries[at as usize].same;
        }
        None
    }

    pub fn peek_mut(&mut self, key: &K) -> Option<&mut V> {
        let at = self.place(key)?;
        self.entries[at as usize].pair.as_deref_mut().map(|(_, value)| value)
    }

    /// Brings an entry to the front, and says whether it is there.
    pub fn promote(&mut self, key: &K) -> bool {
        self.get_mut(key).is_some()
    }

    /// Brings an entry to the front, and gives its value.
    pub fn get_mut(&mut self, key: &K) -> Option<&mut V> {
        let at = self.place(key)?;
        if at != self.first {
            self.unlink(at);
            self.link(at);
        }
        self.entries[at as usize].pair.as_deref_mut().map(|(_, value)| value)
    }

    /// Puts an entry before the others, whose key is not there, and there are fewer than the limit, as is proved at each call.
    pub fn put(&mut self, key: K, value: V) -> Result<Option<V>, AllocFailed<(K, V)>> {
        let granted = self.places.try_reserve(1).is_ok()
            && self.entries.try_reserve(1).is_ok()
            && self.free.try_reserve(self.entries.len() + 1).is_ok();
        if !granted {
            return Err(AllocFailed((key, value)));
        }
        let pair = Some(Box::kit_new((key, value))?);
        let at = self.free.pop().unwrap_or(self.entries.len() as u32);
        let same = self.places.insert(self.hash(&key), at).unwrap_or(NONE);
        let entry = Entry { pair, before: NONE, after: NONE, same };
        if (at as usize) < self.entries.len() {
            self.entries[at as usize] = entry;
        } else {
            self.entries.push(entry);
        }
        self.link(at);
        Ok(None)
    }

    /// Takes the entry away that was used last.
    pub fn pop_mru(&mut self) -> Option<(K, V)> {
        let at = self.first;
        let pair = *(self.entries.get_mut(at as usize)?.pair.take()?);
        self.unlink(at);
        self.forget(self.hash(&pair.0), at);
        self.free.push(at);
        Some(pair)
    }

    /// Takes a place away from those of its hash.
    fn forget(&mut self, hash: u64, at: u32) {
        let next = self.entries[at as usize].same;
        match self.places.get(&hash).copied() {
            Some(first) if first != at => {
                let mut before = first;
                while self.entries[before as usize].same != at {
                    before = self.entries[before as usize].same;
                }
                self.entries[before as usize].same = next;
            }
            _ if next == NONE => _ = self.places.remove(&hash),
            _ => _ = self.places.insert(hash, next),
        }
    }

    fn unlink(&mut self, at: u32) {
        let (before, after) = (self.entries[at as usize].before, self.entries[at as usize].after);
        match before {
            NONE => self.first = after,
            _ => self.entries[before as usize].after = after,
        }
        match after {
            NONE => self.last = before,
            _ => self.entries[after as usize].before = before,
        }
    }

    fn link(&mut self, at: u32) {
        (self.entries[at as usize].before, self.entries[at as usize].after) = (NONE, self.first);
        match self.first {
            NONE => self.last = at,
            first => self.entries[first as usize].before = at,
        }
        self.first = at;
    }
}

#[cfg(test)]
mod tests {
    use super::*;

    /// A key whose hash is that of all others.
    #[derive(Clone, Copy, PartialEq, Eq, Debug)]
    struct Same(u32);

    impl Hash for Same {
        fn hash<H: Hasher>(&self, _: &mut H) {}
    }

    #[test]
    fn keys_of_one_hash_are_told_apart() {
        for order in [[0, 1, 2], [0, 2, 1], [1, 0, 2], [1, 2, 0], [2, 0, 1], [2, 1, 0]] {
            let mut cache = LruCache::<_, _, DefaultHasher>::sparse(NonZeroUsize::MIN).unwrap();
            for key in [0, 1, 2] {
                assert!(cache.put(Same(key), key).is_ok());
            }
            for (gone, key) in order.into_iter().enumerate() {
                assert!(cache.promote(&Same(key)));
                assert_eq!(cache.pop_mru(), Some((Same(key), key)));
                assert_eq!(cache.len(), 2 - gone);
                for other in [0, 1, 2] {
                    assert_eq!(cache.peek_mut(&Same(other)).copied(), order[gone + 1..].contains(&other).then_some(other));
                }
            }
        }
    }
}
