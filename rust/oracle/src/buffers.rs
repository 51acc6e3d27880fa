//! Lent bytes as the Rust's own cells and records, and back.

use crate::leaves;
use crate::src::refmvs::RefMvsBlock;
use crate::src::refmvs::RefMvsFrame;
use crate::src::refmvs::RefMvsTemporalBlock;
use std::mem;

const CELL_LEN: usize = mem::size_of::<RefMvsTemporalBlock>();
const RECORD_LEN: usize = mem::size_of::<RefMvsBlock>();

/// The whole cells of lent bytes.
pub(crate) fn cells(bytes: &[u8]) -> impl Iterator<Item = RefMvsTemporalBlock> + '_ {
    let (whole, _) = bytes.as_chunks::<CELL_LEN>();
    whole.iter().map(|&bytes| leaves::temporal_block(bytes))
}

/// Copies lent bytes into as many cells as they hold.
pub(crate) fn put_cells(into: &mut [RefMvsTemporalBlock], bytes: &[u8]) {
    assert_eq!(into.len(), bytes.len() / CELL_LEN, "as many cells as held");
    for (cell, put) in into.iter_mut().zip(cells(bytes)) {
        *cell = put;
    }
}

/// Copies cells back over the bytes that they came from. What stands behind the last whole cell
/// stays.
pub(crate) fn take_cells(from: &[RefMvsTemporalBlock], bytes: &mut [u8]) {
    let (whole, _) = bytes.as_chunks_mut::<CELL_LEN>();
    assert_eq!(from.len(), whole.len(), "as many cells as held");
    for (bytes, &cell) in whole.iter_mut().zip(from) {
        // SAFETY: The sizes are the same, and the fields leave no gap.
        *bytes = unsafe { mem::transmute::<RefMvsTemporalBlock, [u8; CELL_LEN]>(cell) };
    }
}

/// The whole records of lent bytes. Byte 10 of each must be a size code.
pub(crate) fn blocks(bytes: &[u8]) -> Vec<RefMvsBlock> {
    let (whole, _) = bytes.as_chunks::<RECORD_LEN>();
    whole.iter().map(|&bytes| real(bytes)).collect()
}

/// Makes these the frame's records, as many as there are.
pub(crate) fn put_blocks(rf: &mut RefMvsFrame, blocks: &[RefMvsBlock]) {
    rf.r.resize(blocks.len(), real([0; RECORD_LEN]));
    rf.r.index_mut(..).copy_from_slice(blocks);
}

/// Replaces one of the frame's records.
pub(crate) fn put_block(rf: &mut RefMvsFrame, at: usize, record: [u8; RECORD_LEN]) {
    *rf.r.index_mut(at) = real(record);
}

/// Copies the frame's records over as many of the bytes as they have.
pub(crate) fn take_blocks(rf: &RefMvsFrame, bytes: &mut [u8]) {
    let (whole, _) = bytes.as_chunks_mut::<RECORD_LEN>();
    for (bytes, block) in whole.iter_mut().zip(rf.r.index(..).iter()) {
        *bytes = record_bytes(block);
    }
}

/// The bytes of the frame's records.
pub(crate) fn record_buffer(rf: &RefMvsFrame) -> Vec<u8> {
    rf.r.index(..).iter().flat_map(record_bytes).collect()
}

pub(crate) fn real(record: [u8; RECORD_LEN]) -> RefMvsBlock {
    leaves::block(record).expect("byte 10 is a size code")
}

pub(crate) fn record_bytes(block: &RefMvsBlock) -> [u8; RECORD_LEN] {
    // SAFETY: The sizes are the same, and the fields leave no gap.
    unsafe { mem::transmute(*block) }
}
