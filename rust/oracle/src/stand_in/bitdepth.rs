//! Stand-in for `include/common/bitdepth.rs`: the casts that clipping names.

use std::ffi::c_int;

/// A number that `as` takes to a `T`.
pub trait ToPrimitive<T> {
    fn to_primitive(self) -> T;
}

pub trait AsPrimitive: Sized {
    fn as_<T>(self) -> T
    where
        Self: ToPrimitive<T>,
    {
        self.to_primitive()
    }
}

impl<P> AsPrimitive for P {}

/// The only pair of types that `src/refmvs.rs` clips with, by way of `iclip`.
impl ToPrimitive<c_int> for c_int {
    fn to_primitive(self) -> c_int {
        self
    }
}
