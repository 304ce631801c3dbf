//! `VecDeque` and `BTreeMap`, whose memory may be refused.
use super::alloc::{AllocError, AllocFailed};
use ::alloc::collections::VecDeque as Deque;
use ::alloc::vec::Vec as Rows;
use core::borrow::Borrow;
use core::mem::replace;
use core::ops::{Deref, DerefMut};

/// Rust's `VecDeque`, but that what needs memory may be refused.
pub struct VecDeque<T> {
    items: Deque<T>,
}

impl<T> VecDeque<T> {
    pub fn new() -> Self {
        VecDeque { items: Deque::new() }
    }

    pub fn kit_reserve(&mut self, more: usize) -> Result<(), AllocError> {
        self.items.try_reserve(more).map_err(|_| AllocError)
    }

    /// Gives memory back that fewer items need, where the smaller block is granted.
    pub fn shrink_to(&mut self, least: usize) {
        let mut fewer = Deque::new();
        if self.items.len().max(least) < self.items.capacity() && fewer.try_reserve_exact(self.items.len().max(least)).is_ok() {
            fewer.extend(self.items.drain(..));
            self.items = fewer;
        }
    }

    pub fn kit_reserve_exact(&mut self, more: usize) -> Result<(), AllocError> {
        self.items.try_reserve_exact(more).map_err(|_| AllocError)
    }

    pub fn push_back(&mut self, item: T) -> Result<(), AllocError> {
        self.kit_reserve(1)?;
        self.items.push_back(item);
        Ok(())
    }

    /// Adds an item before the one at this index, or at the end; it comes back where memory is refused.
    pub fn insert(&mut self, at: usize, item: T) -> Result<(), AllocFailed<T>> {
        match self.kit_reserve(1) {
            Err(AllocError) => return Err(AllocFailed(item)),
            Ok(()) if at == self.items.len() => self.items.push_back(item),
            Ok(()) => self.items.insert(at, item),
        }
        Ok(())
    }

    /// Adds an item where there is room, as is proved at each call, and so does the next.
    pub fn push_back_reserved(&mut self, item: T) {
        self.items.push_back(item);
    }

    pub fn push_front_reserved(&mut self, item: T) {
        self.items.push_front(item);
    }
}

impl<T> Deref for VecDeque<T> {
    type Target = Deque<T>;

    fn deref(&self) -> &Deque<T> {
        &self.items
    }
}

impl<T> DerefMut for VecDeque<T> {
    fn deref_mut(&mut self) -> &mut Deque<T> {
        &mut self.items
    }
}

/// Rust's `BTreeMap`, but that what needs memory may be refused: its keys, and its values beside them, lie in rows of at most 64, and a full
/// row becomes two.
pub struct BTreeMap<K, V> {
    rows: Rows<(Rows<K>, Rows<V>)>,
    len: usize,
}

/// How many entries a row has at most.
const MOST: usize = 64;

impl<K: Ord, V> BTreeMap<K, V> {
    pub fn new() -> Self {
        BTreeMap { rows: Rows::new(), len: 0 }
    }

    #[must_use]
    pub fn len(&self) -> usize {
        self.len
    }

    #[must_use]
    pub fn get<Q: Ord + ?Sized>(&self, key: &Q) -> Option<&V>
    where
        K: Borrow<Q>,
    {
        let (row, found) = self.find(key);
        let at = found.ok()?;
        Some(&self.rows[row].1[at])
    }

    #[must_use]
    pub fn get_mut(&mut self, key: &K) -> Option<&mut V> {
        let (row, found) = self.find(key);
        let at = found.ok()?;
        Some(&mut self.rows[row].1[at])
    }

    /// Puts a value, and takes the one away that the key had.
    ///
    /// # Errors
    ///
    /// Memory that is refused; the two come back.
    pub fn insert(&mut self, key: K, value: V) -> Result<Option<V>, AllocFailed<(K, V)>> {
        let (row, found) = self.find(&key);
        match found {
            Ok(at) => Ok(Some(replace(&mut self.rows[row].1[at], value))),
            Err(at) => {
                let Ok((row, at)) = self.make_room(row, at) else {
                    return Err(AllocFailed((key, value)));
                };
                self.rows[row].0.insert(at, key);
                self.rows[row].1.insert(at, value);
                self.len += 1;
                Ok(None)
            }
        }
    }

    /// Takes the entry of a key away.
    pub fn remove(&mut self, key: &K) -> Option<V> {
        let (row, found) = self.find(key);
        let at = found.ok()?;
        Some(self.take(row, at).1)
    }

    /// Takes the first entry away.
    pub fn pop_first(&mut self) -> Option<(K, V)> {
        if self.len == 0 { None } else { Some(self.take(0, 0)) }
    }

    /// The row of a key, and its place there, or where it would be.
    fn find<Q: Ord + ?Sized>(&self, key: &Q) -> (usize, Result<usize, usize>)
    where
        K: Borrow<Q>,
    {
        let row = self.rows.partition_point(|row| row.0.first().is_none_or(|first| first.borrow() <= key)).saturating_sub(1);
        (row, self.rows.get(row).map_or(Err(0), |row| row.0.binary_search_by(|own| own.borrow().cmp(key))))
    }

    /// Room for one more entry at this place, which may lie in another row then: behind all others in a new one, so that ascending keys fill rows.
    fn make_room(&mut self, row: usize, at: usize) -> Result<(usize, usize), AllocError> {
        if self.rows.is_empty() {
            self.rows.try_reserve(1).map_err(|_| AllocError)?;
            self.rows.push((Rows::new(), Rows::new()));
        }
        if self.rows[row].0.len() < MOST {
            self.rows[row].0.try_reserve(1).and_then(|()| self.rows[row].1.try_reserve(1)).map_err(|_| AllocError)?;
            return Ok((row, at));
        }
        let mut behind = (Rows::new(), Rows::new());
        behind.0.try_reserve_exact(MOST).and_then(|()| behind.1.try_reserve_exact(MOST)).map_err(|_| AllocError)?;
        self.rows.try_reserve(1).map_err(|_| AllocError)?;
        let kept = if at == MOST && row + 1 == self.rows.len() { MOST } else { MOST / 2 };
        behind.0.extend(self.rows[row].0.drain(kept..));
        behind.1.extend(self.rows[row].1.drain(kept..));
        self.rows.insert(row + 1, behind);
        Ok(if at <= MOST / 2 { (row, at) } else { (row + 1, at - kept) })
    }

    fn take(&mut self, row: usize, at: usize) -> (K, V) {
        let entry = (self.rows[row].0.remove(at), self.rows[row].1.remove(at));
        self.len -= 1;
        if self.len == 0 {
            self.rows = Rows::new();
        } else if self.rows[row].0.is_empty() {
            self.rows.remove(row);
        }
        entry
    }
}
