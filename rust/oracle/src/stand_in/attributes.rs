//! Stand-in for `include/common/attributes.rs`: two counts of leading zeros.

use std::ffi::c_int;
use std::ffi::c_uint;
use std::ffi::c_ulonglong;

pub fn clz(mask: c_uint) -> c_int {
    mask.leading_zeros() as c_int
}

pub fn clzll(mask: c_ulonglong) -> c_int {
    mask.leading_zeros() as c_int
}
