//! How slices are lent to the port. With the feature `guarded` a slice is lent as a copy between two
//! stretches of memory that may not be touched, so that a byte read or written outside it stops the
//! program, and a byte written inside one that is only read is told.

/// A part that is read.
pub(crate) struct Part {
    pub at: *const u8,
    pub len: usize,
}

/// A part that may be written to.
pub(crate) struct PartMut {
    pub at: *mut u8,
    pub len: usize,
}

#[cfg(not(feature = "guarded"))]
pub(crate) fn lend<const N: usize, const M: usize>(
    read: [&[u8]; N],
    written: [&mut [u8]; M],
    call: impl FnOnce([Part; N], [PartMut; M]) -> u8,
) -> u8 {
    let part = |slice: &[u8]| Part {
        at: slice.as_ptr(),
        len: slice.len(),
    };
    let part_mut = |slice: &mut [u8]| PartMut {
        at: slice.as_mut_ptr(),
        len: slice.len(),
    };
    call(read.map(part), written.map(part_mut))
}

#[cfg(feature = "guarded")]
pub(crate) use crate::guarded::lend;
