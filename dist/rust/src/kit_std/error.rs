//! What `derive(Error)` of the crate thiserror does, as far as the sources use it: a message for a struct or for each variant.

macro_rules! error {
    ($(#[doc = $doc:literal])* #[derive($($derived:ident),*)] #[error($text:literal)] pub struct $name:ident;) => {
        $(#[doc = $doc])* #[derive($($derived),*)] pub struct $name;
        error!(@display $name, _error, f, f.write_str($text), None);
    };
    ($(#[doc = $doc:literal])* #[derive($($derived:ident),*)] #[error($text:literal)] pub struct $name:ident {
        $($(#[doc = $about:literal])* pub $field:ident: $of:ty,)*
    }) => {
        $(#[doc = $doc])* #[derive($($derived),*)] pub struct $name { $($(#[doc = $about])* pub $field: $of,)* }
        error!(@display $name, error, f, { let $name { $($field),* } = error; write!(f, $text) }, None);
    };
    ($(#[doc = $doc:literal])* #[derive($($derived:ident),*)] pub enum $name:ident { $(
        $(#[doc = $about:literal])* #[error($said:tt)]
        $variant:ident $(( $(#[$from:ident $(($how:ident))?])? $of:ident ))? $({ $($(#[doc = $what:literal])* $field:ident: $kind:ty),* $(,)? })?,
    )* }) => {
        $(#[doc = $doc])* #[derive($($derived),*)] pub enum $name {
            $($(#[doc = $about])* $variant $(($of))? $({ $($(#[doc = $what])* $field: $kind),* })?,)*
        }
        error!(@display $name, error, f, match error {
            $($name::$variant $((error!(@part of, $of)))? $({ $($field),* })? =>
                error!(@message f, $said $(, $($(($how))?)? of, $of)?),)*
        }, match error {
            $($name::$variant $((error!(@part of, $of)))? $({ $($field: _),* })? => error!(@source $said $(, of, $of)?),)*
        });
        $($($(error!(@$from $name, $variant, $of);)?)?)*
    };
    (@from $name:ident, $variant:ident, $of:ty) => {
        impl From<$of> for $name {
            fn from(error: $of) -> Self {
                $name::$variant(error)
            }
        }
    };
    (@display $name:ident, $error:ident, $f:ident, $said:expr, $source:expr) => {
        impl core::fmt::Display for $name {
            fn fmt(&self, $f: &mut core::fmt::Formatter<'_>) -> core::fmt::Result {
                let $error = self;
                $said
            }
        }
        impl core::error::Error for $name {
            fn source(&self) -> Option<&(dyn core::error::Error + 'static)> {
                let $error = self;
                $source
            }
        }
    };
    (@source "{0}", $part:ident, String) => {{ let _ = $part; None }};
    (@source "{0}", $part:ident, $of:ty) => { Some($part) };
    (@source transparent, $part:ident, $of:ty) => { Some($part) };
    (@source $said:tt $(, $part:ident, $of:ty)?) => {{ $(let _ = $part;)? None }};
    (@part $part:ident, $of:ty) => { $part };
    (@message $f:ident, transparent, $part:ident, $of:ty) => { core::fmt::Display::fmt($part, $f) };
    (@message $f:ident, $text:literal, $part:ident, $of:ty) => { write!($f, $text, $part) };
    (@message $f:ident, $text:literal $(, (alloc) $part:ident, $of:ty)?) => { write!($f, $text) };
}
