//! Stand-in for the crate `strum`: the two derives that the supplied files name.

pub use stand_in_derives::EnumCount;
pub use stand_in_derives::FromRepr;

/// The number of variants of an enum.
pub trait EnumCount {
    const COUNT: usize;
}
