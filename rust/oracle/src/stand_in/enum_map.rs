//! Stand-in for `src/enum_map.rs`.

/// A default that may stand in a `const`.
pub trait DefaultValue {
    const DEFAULT: Self;
}

/// An enum whose `N` values count from 0. The supplied files implement it; what they would use it
/// for isn't supplied.
#[allow(dead_code, clippy::wrong_self_convention)]
pub trait EnumKey<const N: usize>: Sized {
    const VALUES: [Self; N];

    fn as_usize(self) -> usize;
}
