//! The small functions at the bottom: vectors, hints, sizes and the layout of cells and records.

use crate::include::dav1d::headers::Rav1dFrameHeader;
use crate::outcome::outcome_of;
use crate::src::env::fix_mv_precision;
use crate::src::env::get_poc_diff;
use crate::src::levels::BlockSize;
use crate::src::levels::Mv;
use crate::src::refmvs::load_tmvs;
use crate::src::refmvs::RefMvsBlock;
use crate::src::refmvs::RefMvsTemporalBlock;
use crate::Outcome;
use std::mem;
use std::ptr;

// The Rust's records have the machine's byte order; the lent bytes are little-endian.
#[cfg(not(target_endian = "little"))]
compile_error!("the oracle needs a little-endian machine");

#[derive(Clone, Copy, Debug, PartialEq, Eq)]
pub struct Vector {
    pub y: i16,
    pub x: i16,
}

/// A motion cell of 5 bytes.
#[derive(Clone, Copy, Debug, PartialEq, Eq)]
pub struct Cell {
    pub mv: Vector,
    pub reference: i8,
}

/// A block record of 12 bytes.
#[derive(Clone, Copy, Debug, PartialEq, Eq)]
pub struct Record {
    pub mv: [Vector; 2],
    pub reference: [i8; 2],
    pub size: u8,
    pub mf: u8,
}

/// A block's sides in 4-sample units.
#[derive(Clone, Copy, Debug, PartialEq, Eq)]
pub struct Size {
    pub width: u8,
    pub height: u8,
}

impl From<Mv> for Vector {
    fn from(Mv { y, x }: Mv) -> Self {
        Self { y, x }
    }
}

/// `mv_projection`.
pub fn project(y: i16, x: i16, num: i32, den: i32) -> Outcome<Vector> {
    outcome_of(|| load_tmvs::project(Mv { y, x }, num, den).into())
}

/// `fix_mv_precision`, with the two flags of the frame header that it reads.
pub fn lower(y: i16, x: i16, integer: bool, hp: bool) -> Outcome<Vector> {
    let header = Rav1dFrameHeader {
        force_integer_mv: integer,
        hp,
        ..Default::default()
    };
    outcome_of(|| {
        let mut mv = Mv { y, x };
        fix_mv_precision(&header, &mut mv);
        mv.into()
    })
}

/// `get_poc_diff`.
pub fn distance(bits: u8, a: i32, b: i32) -> Outcome<i32> {
    outcome_of(|| get_poc_diff(bits, a, b))
}

/// `Neg for Mv`.
pub fn negate(y: i16, x: i16) -> Outcome<Vector> {
    outcome_of(|| (-Mv { y, x }).into())
}

/// `Mv::is_invalid`.
pub fn is_invalid(y: i16, x: i16) -> bool {
    Mv { y, x }.is_invalid()
}

/// The fields of a `RefMvsTemporalBlock` with these bytes.
pub fn cell(bytes: [u8; 5]) -> Cell {
    let block = temporal_block(bytes);
    Cell {
        mv: block.mv.into(),
        reference: block.r#ref,
    }
}

/// The `RefMvsTemporalBlock` with these bytes.
pub(crate) fn temporal_block(bytes: [u8; 5]) -> RefMvsTemporalBlock {
    const { assert!(mem::size_of::<RefMvsTemporalBlock>() == 5) };
    // SAFETY: The sizes are the same, and any bytes make numbers.
    unsafe { ptr::read_unaligned(bytes.as_ptr().cast()) }
}

/// The fields of a `RefMvsBlock` with these bytes, or nothing where byte 10 is no size code.
pub fn record(bytes: [u8; 12]) -> Option<Record> {
    let block = block(bytes)?;
    Some(Record {
        mv: block.mv.mv.map(Vector::from),
        reference: block.r#ref.r#ref,
        size: block.bs as u8,
        mf: block.mf,
    })
}

/// The `RefMvsBlock` with these bytes, or nothing where byte 10 is no size code: such bytes may not
/// become a `RefMvsBlock` at all.
pub(crate) fn block(bytes: [u8; 12]) -> Option<RefMvsBlock> {
    const { assert!(mem::size_of::<RefMvsBlock>() == 12) };
    const { assert!(mem::offset_of!(RefMvsBlock, bs) == 10) };
    BlockSize::from_repr(bytes[10])?;
    // SAFETY: The sizes are the same, the enum's byte was just checked, and any bytes make the
    // numbers of the other fields.
    Some(unsafe { ptr::read_unaligned(bytes.as_ptr().cast()) })
}

/// The sides of the size with this code, by its name in `BlockSize`; nothing above 21.
pub fn size(code: u8) -> Option<Size> {
    let [width, height] = BlockSize::from_repr(code)?.dimensions();
    Some(Size { width, height })
}
