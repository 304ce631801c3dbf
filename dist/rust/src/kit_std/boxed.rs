//! The kit's calls of `Box`, whose memory may be refused.
use super::alloc::AllocFailed;
pub use ::alloc::boxed::Box;

/// `kit_` is before the names that std has too.
pub trait KitBox<T>: Sized {
    /// A value in memory of its own; it comes back where that is refused.
    fn kit_new(item: T) -> Result<Self, AllocFailed<T>>;
    /// The value.
    fn kit_into_inner(this: Self) -> T;
}

impl<T> KitBox<T> for Box<T> {
    fn kit_new(item: T) -> Result<Self, AllocFailed<T>> {
        // Stable Rust asks for the memory of a `Vec` alone, and a whole `Vec` becomes a boxed slice.
        let mut room = ::alloc::vec::Vec::new();
        if room.try_reserve_exact(1).is_err() {
            return Err(AllocFailed(item));
        }
        room.push(item);
        let slice: *mut [T] = Box::into_raw(room.into_boxed_slice());
        Ok(unsafe { Box::from_raw(slice.cast::<T>()) })
    }

    fn kit_into_inner(this: Self) -> T {
        *this
    }
}
