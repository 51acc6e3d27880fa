//! Vectors and hint distances. These have a domain, which is tested here.

use crate::abi;

/// A vector in eighths of a sample.
#[derive(Clone, Copy, Debug, PartialEq, Eq)]
pub struct Vector {
    pub y: i16,
    pub x: i16,
}

impl Vector {
    fn is_within(self, limit: u16) -> bool {
        self.y.unsigned_abs() <= limit && self.x.unsigned_abs() <= limit
    }

    /// y is in the low half.
    fn unpacked(bits: u32) -> Self {
        Self {
            y: bits as u16 as i16,
            x: (bits >> 16) as u16 as i16,
        }
    }
}

/// The vector times num / den. Components are within 4,095, num within 31, den is 1 to 31.
pub fn project(v: Vector, num: i16, den: u32) -> Option<Vector> {
    if !v.is_within(4095) || num.unsigned_abs() > 31 || !(1..=31).contains(&den) {
        return None;
    }
    // SAFETY: The function's `requires` was just tested.
    let bits = unsafe { abi::jaskkovir_mv_projection(v.y, v.x, num, den) };
    Some(Vector::unpacked(bits))
}

/// The vector at the header's precision. Components are within 16,384.
pub fn lower(v: Vector, integer: bool, hp: bool) -> Option<Vector> {
    if !v.is_within(16_384) {
        return None;
    }
    // SAFETY: The function's `requires` was just tested.
    let bits = unsafe { abi::jaskkovir_fix_mv_precision(v.y, v.x, integer, hp) };
    Some(Vector::unpacked(bits))
}

/// How far hint a lies ahead of hint b. Bits are 0 to 8, and both hints below 2^bits.
pub fn distance(bits: u32, a: u32, b: u32) -> Option<i16> {
    if bits > 8 || a >> bits != 0 || b >> bits != 0 {
        return None;
    }
    // SAFETY: The function's `requires` was just tested.
    Some(unsafe { abi::jaskkovir_get_poc_diff(bits, a, b) })
}
