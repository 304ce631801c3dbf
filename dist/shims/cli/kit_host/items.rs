//! What a program's std has and a library's has not: memory that is refused is an error of its input and output.
use crate::kit_std::alloc::{AllocError, AllocFailed};

impl From<AllocError> for std::io::Error {
    fn from(_: AllocError) -> Self {
        std::io::ErrorKind::OutOfMemory.into()
    }
}

impl<T> From<AllocFailed<T>> for std::io::Error {
    fn from(_: AllocFailed<T>) -> Self {
        std::io::ErrorKind::OutOfMemory.into()
    }
}

macro_rules! made_items {
    ($item:expr; $count:expr) => {{
        let mut items = $crate::kit_std::vec::Vec::new();
        $crate::kit_std::vec::KitVec::kit_resize(&mut items, $count, $item).map(|()| items)
    }};
    ($($item:expr),*) => {{
        let mut items = $crate::kit_std::vec::Vec::new();
        (|| -> Result<_, $crate::kit_std::alloc::AllocError> {
            $($crate::kit_std::vec::KitVec::kit_push(&mut items, $item)?;)*
            Ok(items)
        })()
    }};
}
pub(crate) use made_items;
