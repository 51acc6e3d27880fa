//! Stand-in for the crate `zerocopy`: the three traits and derives that the supplied files name.
//!
//! `FromZeroes` works, by fields and without `unsafe`; `src/refmvs.rs` fills its records with it.
//! The views of bytes only have to compile: nothing in `src/refmvs.rs` reaches them.

pub use stand_in_derives::AsBytes;
pub use stand_in_derives::FromBytes;
pub use stand_in_derives::FromZeroes;

/// A type with a value of all zero bytes.
pub trait FromZeroes {
    fn new_zeroed() -> Self;
}

macro_rules! zero_number {
    ($($number:ty)*) => {
        $(
            impl FromZeroes for $number {
                fn new_zeroed() -> Self {
                    0
                }
            }
        )*
    };
}

zero_number!(i8 u8 i16);

impl<T: FromZeroes, const N: usize> FromZeroes for [T; N] {
    fn new_zeroed() -> Self {
        std::array::from_fn(|_| T::new_zeroed())
    }
}

const NO_VIEWS: &str = "views of bytes are not part of the stand-in";

pub trait FromBytes: FromZeroes + Sized {
    fn ref_from(_bytes: &[u8]) -> Option<&Self> {
        unimplemented!("{NO_VIEWS}")
    }

    fn mut_from(_bytes: &mut [u8]) -> Option<&mut Self> {
        unimplemented!("{NO_VIEWS}")
    }

    fn slice_from(_bytes: &[u8]) -> Option<&[Self]> {
        unimplemented!("{NO_VIEWS}")
    }

    fn mut_slice_from(_bytes: &mut [u8]) -> Option<&mut [Self]> {
        unimplemented!("{NO_VIEWS}")
    }
}

pub trait AsBytes {
    fn as_bytes(&self) -> &[u8] {
        unimplemented!("{NO_VIEWS}")
    }
}
