//! Stand-in for `src/internal.rs`: the one type that the supplied files need of it.

use std::ffi::c_int;

/// As `src/internal.rs` declares it.
#[derive(Clone, Copy, Default)]
pub struct Bxy {
    pub x: c_int,
    pub y: c_int,
}
