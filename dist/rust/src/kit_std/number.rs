//! Numbers of the other sign. Std has this since Rust 1.87, by `cast_signed` and `cast_unsigned`.
pub trait KitNumber {
    type Other;

    /// The number that has the same bits.
    fn kit_other_sign(self) -> Self::Other;
}

macro_rules! numbers {
    ($($one:ident $other:ident)*) => { $(impl KitNumber for $one {
        type Other = $other;

        #[inline(always)]
        fn kit_other_sign(self) -> $other {
            self as $other
        }
    })* };
}

numbers! { i8 u8 i16 u16 i32 u32 i64 u64 u8 i8 u16 i16 u32 i32 u64 i64 }
