//! The kit's calls of `String`, whose memory may be refused.
use super::alloc::AllocError;
pub use ::alloc::string::String;
use core::fmt;

pub trait KitString: Sized {
    /// A copy of a text.
    fn from_str(text: &str) -> Result<Self, AllocError>;
}

impl KitString for String {
    #[inline]
    fn from_str(text: &str) -> Result<Self, AllocError> {
        let mut made = String::new();
        made.try_reserve_exact(text.len()).map_err(|_| AllocError)?;
        made.push_str(text);
        Ok(made)
    }
}

/// A text that grows, and asks for the memory of each part.
pub struct Asking<'a>(pub &'a mut String);

impl fmt::Write for Asking<'_> {
    #[inline]
    fn write_str(&mut self, text: &str) -> fmt::Result {
        self.0.try_reserve(text.len()).map(|()| self.0.push_str(text)).map_err(|_| fmt::Error)
    }
}

/// `format!`, whose memory may be refused.
macro_rules! format {
    ($($said:tt)*) => {{
        let mut made = $crate::kit_std::string::String::new();
        let written = core::fmt::write(&mut $crate::kit_std::string::Asking(&mut made), format_args!($($said)*));
        written.map(|()| made).map_err(|_| $crate::kit_std::alloc::AllocError)
    }};
}
pub(crate) use format;
