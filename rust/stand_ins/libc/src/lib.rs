//! Stand-in for the crate `libc`: the error numbers that `src/error.rs` names, as on Linux.

use std::ffi::c_int;

pub const ENOENT: c_int = 2;
pub const EIO: c_int = 5;
pub const EAGAIN: c_int = 11;
pub const ENOMEM: c_int = 12;
pub const EINVAL: c_int = 22;
pub const ERANGE: c_int = 34;
pub const ENOPROTOOPT: c_int = 92;
