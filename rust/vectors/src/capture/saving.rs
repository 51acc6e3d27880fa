//! Saves, whose records are lent whole.

use crate::capture::made::Made;
use crate::capture::made::STRIDE;
use crate::job::save;
use crate::load::edges::window;
use crate::record;
use crate::save::block;

/// The listed ones, with one thread each way.
const RECORDS: usize = 70 * STRIDE + 1;

/// 64 x 16 samples and a save of all of them, from blocks of 8 x 8.
pub fn whole() -> Made {
    Made::small().with(|made| {
        made.description.height = 16;
        made.jobs = vec![save(window([0, 8], [0, 2]))];
        made.fields[0] = None;
        made.records = Some(record::bytes(block::PLAIN).repeat(RECORDS));
    })
}

/// The record that a save of the first superblock row reads for cell (y, x).
pub fn read(made: &mut Made, [y, x]: [usize; 2]) -> &mut [u8; 12] {
    let bytes = made.records.as_mut().expect("the records are there");
    &mut bytes.as_chunks_mut().0[2 * STRIDE * (2 * y + 1) + 2 * x + 1]
}
