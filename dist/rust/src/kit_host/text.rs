//! What a program calls of `String` and a library does not.
use crate::kit_std::alloc::AllocError;
use crate::kit_std::string::{Asking, String};
use std::fmt;

/// `kit_` is before the names that std has too.
pub trait KitText {
    /// # Errors
    ///
    /// Memory that is refused.
    fn kit_push_str(&mut self, text: &str) -> Result<(), AllocError>;

    /// # Errors
    ///
    /// Memory that is refused.
    fn kit_push(&mut self, c: char) -> Result<(), AllocError> {
        self.kit_push_str(c.encode_utf8(&mut [0; 4]))
    }

    /// # Errors
    ///
    /// Memory that is refused.
    fn write_fmt(&mut self, text: fmt::Arguments<'_>) -> Result<(), AllocError>;
}

impl KitText for String {
    fn kit_push_str(&mut self, text: &str) -> Result<(), AllocError> {
        fmt::Write::write_str(&mut Asking(self), text).map_err(|_| AllocError)
    }

    fn write_fmt(&mut self, text: fmt::Arguments<'_>) -> Result<(), AllocError> {
        fmt::Write::write_fmt(&mut Asking(self), text).map_err(|_| AllocError)
    }
}

/// What can be read as a text.
pub trait AsStr {
    fn as_str(&self) -> &str;
}

impl AsStr for String {
    fn as_str(&self) -> &str {
        self
    }
}

impl AsStr for &str {
    fn as_str(&self) -> &str {
        self
    }
}

/// What `to_string` is in the kit, where memory may be refused. Rust's has the same name and is always in scope.
pub trait ToText {
    fn to_text(&self) -> Result<String, AllocError>;
}

impl<T: fmt::Display + ?Sized> ToText for T {
    fn to_text(&self) -> Result<String, AllocError> {
        let mut text = String::new();
        KitText::write_fmt(&mut text, format_args!("{self}"))?;
        Ok(text)
    }
}

macro_rules! made_text {
    ($($text:tt)*) => {{
        let mut text = $crate::kit_std::string::String::new();
        $crate::kit_host::text::KitText::write_fmt(&mut text, format_args!($($text)*)).map(|()| text)
    }};
}
pub(crate) use made_text;
