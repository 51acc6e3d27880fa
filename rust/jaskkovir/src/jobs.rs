//! Jobs: loads and saves that are admitted together and then stepped, one row of work at a time, in
//! any order.

use crate::abi;
use crate::lend::lend;

/// What a step of a finished job answers: neither acceptance nor a refusal.
pub const DONE: u8 = 15;

/// A job's record. In bytes, little-endian: kind, tile row (bytes); column start, column end, row
/// start, row end, superblock row (u16); pass (byte); steps done (u32). All but the last as a
/// capture file has it.
#[derive(Clone, Copy, Debug, PartialEq, Eq)]
pub struct Job {
    /// 0 for a load, 1 for a save.
    pub kind: u8,
    pub tile_row: u8,
    pub left: u16,
    pub right: u16,
    pub top: u16,
    pub bottom: u16,
    /// Whose row table a save reads; a load has no use for it.
    pub superblock_row: u16,
    /// 1 or 2, for a load too.
    pub pass: u8,
    pub done: u32,
}

impl Job {
    pub const LEN: usize = 17;

    /// Where the steps done stand in the bytes.
    pub const DONE_AT: usize = 13;

    pub fn to_bytes(&self) -> [u8; Self::LEN] {
        let numbers = [
            self.left,
            self.right,
            self.top,
            self.bottom,
            self.superblock_row,
        ];
        let mut bytes = [0; Self::LEN];
        bytes[0] = self.kind;
        bytes[1] = self.tile_row;
        bytes[2..12].copy_from_slice(numbers.map(u16::to_le_bytes).as_flattened());
        bytes[12] = self.pass;
        bytes[Self::DONE_AT..].copy_from_slice(&self.done.to_le_bytes());
        bytes
    }

    pub fn from_bytes(bytes: &[u8; Self::LEN]) -> Self {
        let number = |at: usize| u16::from_le_bytes([bytes[at], bytes[at + 1]]);
        Self {
            kind: bytes[0],
            tile_row: bytes[1],
            left: number(2),
            right: number(4),
            top: number(6),
            bottom: number(8),
            superblock_row: number(10),
            pass: bytes[12],
            done: u32::from_le_bytes(std::array::from_fn(|i| bytes[Self::DONE_AT + i])),
        }
    }
}

/// What an admission and each step read beside the jobs.
#[derive(Clone, Copy, Debug)]
pub struct Sources<'a> {
    /// 109 bytes.
    pub frame: &'a [u8],
    /// 7 bytes; a field whose byte is 0 isn't looked at.
    pub present: &'a [u8],
    pub fields: [&'a [u8]; 7],
    pub records: &'a [u8],
}

/// Whether the jobs, one to eight of 17 bytes each, may be stepped together. Answers 0 or a refusal,
/// and writes nothing.
pub fn admit(sources: &Sources, jobs: &[u8], projection: &[u8], saved: &[u8]) -> u8 {
    let Sources {
        frame,
        present,
        fields: [f0, f1, f2, f3, f4, f5, f6],
        records,
    } = sources;
    lend(
        [
            frame, present, jobs, f0, f1, f2, f3, f4, f5, f6, records, projection, saved,
        ],
        [],
        |[frame, present, jobs, f0, f1, f2, f3, f4, f5, f6, records, projection, saved], []| {
            // SAFETY: The parts are slices, and none is written to.
            unsafe {
                abi::jaskkovir_admit(
                    frame.at,
                    frame.len,
                    present.at,
                    present.len,
                    jobs.at,
                    jobs.len,
                    f0.at,
                    f0.len,
                    f1.at,
                    f1.len,
                    f2.at,
                    f2.len,
                    f3.at,
                    f3.len,
                    f4.at,
                    f4.len,
                    f5.at,
                    f5.len,
                    f6.at,
                    f6.len,
                    records.at,
                    records.len,
                    projection.at,
                    projection.len,
                    saved.at,
                    saved.len,
                )
            }
        },
    )
}

/// One row of job `k`'s work. Answers 0 where it is done and counted, [`DONE`] where nothing was
/// left to do, or a refusal; but for 0 nothing is written.
pub fn step(
    sources: &Sources,
    jobs: &mut [u8],
    k: usize,
    projection: &mut [u8],
    saved: &mut [u8],
) -> u8 {
    let Sources {
        frame,
        present,
        fields: [f0, f1, f2, f3, f4, f5, f6],
        records,
    } = sources;
    lend(
        [frame, present, f0, f1, f2, f3, f4, f5, f6, records],
        [jobs, projection, saved],
        |[frame, present, f0, f1, f2, f3, f4, f5, f6, records], [jobs, projection, saved]| {
            // SAFETY: The parts are slices, and none shares a byte with one written to.
            unsafe {
                abi::jaskkovir_step(
                    frame.at,
                    frame.len,
                    present.at,
                    present.len,
                    jobs.at,
                    jobs.len,
                    k,
                    f0.at,
                    f0.len,
                    f1.at,
                    f1.len,
                    f2.at,
                    f2.len,
                    f3.at,
                    f3.len,
                    f4.at,
                    f4.len,
                    f5.at,
                    f5.len,
                    f6.at,
                    f6.len,
                    records.at,
                    records.len,
                    projection.at,
                    projection.len,
                    saved.at,
                    saved.len,
                )
            }
        },
    )
}
