//! The kit's calls of `Vec`, whose memory may be refused.
use super::alloc::{AllocError, AllocFailed};
pub use ::alloc::vec::Vec;
use core::ops::Range;

/// `kit_` is before the names that std has too.
pub trait KitVec<T>: Sized {
    /// With memory for this many items.
    fn kit_with_capacity(capacity: usize) -> Result<Self, AllocError>;

    /// Takes memory for exactly so many more items, where there is none for them yet.
    fn kit_reserve_exact(&mut self, more: usize) -> Result<(), AllocError>;

    /// Takes memory for at least so many more items, where there is none for them yet.
    fn kit_reserve(&mut self, more: usize) -> Result<(), AllocError>;

    /// Adds an item at the end; it comes back where memory is refused.
    fn kit_push(&mut self, item: T) -> Result<(), AllocFailed<T>>;

    /// Adds an item where there is room, as is proved at each call. Without room it takes memory as std's `push` does.
    fn push_reserved(&mut self, item: T);

    /// Takes the last item away where there is one, as is proved at each call. Without one it ends the process.
    fn take_last(&mut self) -> T;

    fn slice_mut(&mut self, range: Range<usize>) -> &mut [T];

    /// A copy of these items.
    fn from_slice(items: &[T]) -> Result<Self, AllocError>
    where
        T: Copy;

    /// Adds copies of these items at the end.
    fn kit_extend_from_slice(&mut self, items: &[T]) -> Result<(), AllocError>
    where
        T: Copy;

    /// Has it this long, by copies of an item where it was shorter.
    fn kit_resize(&mut self, len: usize, item: T) -> Result<(), AllocError>
    where
        T: Copy;
}

impl<T> KitVec<T> for Vec<T> {
    fn kit_with_capacity(capacity: usize) -> Result<Self, AllocError> {
        let mut items = Vec::new();
        items.try_reserve_exact(capacity).map(|()| items).map_err(|_| AllocError)
    }

    fn kit_reserve_exact(&mut self, more: usize) -> Result<(), AllocError> {
        self.try_reserve_exact(more).map_err(|_| AllocError)
    }

    #[inline]
    fn kit_reserve(&mut self, more: usize) -> Result<(), AllocError> {
        self.try_reserve(more).map_err(|_| AllocError)
    }

    #[inline]
    fn kit_push(&mut self, item: T) -> Result<(), AllocFailed<T>> {
        if self.try_reserve(1).is_err() {
            return Err(AllocFailed(item));
        }
        self.push(item);
        Ok(())
    }

    #[inline]
    fn push_reserved(&mut self, item: T) {
        self.push(item);
    }

    #[inline]
    fn take_last(&mut self) -> T {
        self.pop().unwrap()
    }

    fn slice_mut(&mut self, range: Range<usize>) -> &mut [T] {
        &mut self[range]
    }

    fn from_slice(items: &[T]) -> Result<Self, AllocError>
    where
        T: Copy,
    {
        let mut made = Vec::kit_with_capacity(items.len())?;
        made.kit_extend_from_slice(items).map(|()| made)
    }

    fn kit_extend_from_slice(&mut self, items: &[T]) -> Result<(), AllocError>
    where
        T: Copy,
    {
        self.try_reserve(items.len()).map(|()| self.extend_from_slice(items)).map_err(|_| AllocError)
    }

    fn kit_resize(&mut self, len: usize, item: T) -> Result<(), AllocError>
    where
        T: Copy,
    {
        self.try_reserve(len.saturating_sub(self.len())).map(|()| self.resize(len, item)).map_err(|_| AllocError)
    }
}

/// `vec!`, whose memory may be refused.
macro_rules! vec {
    ($item:expr; $count:expr) => {{
        let mut items = $crate::kit_std::vec::Vec::new();
        $crate::kit_std::vec::KitVec::kit_resize(&mut items, $count, $item).map(|()| items)
    }};
}
pub(crate) use vec;
