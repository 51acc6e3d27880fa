//! Block records, and the lengths of records and cells.

use crate::leaf::vector_bytes;
use crate::split_mix::SplitMix64;
use oracle::leaves::Record;
use oracle::leaves::Vector;

pub const RECORD_LEN: u32 = 12;

pub const CELL_LEN: u32 = 5;

/// A well-formed record.
pub const PLAIN: Record = Record {
    mv: [Vector { y: 5, x: -6 }, Vector { y: -700, x: 16_383 }],
    reference: [1, 7],
    size: 12,
    mf: 2,
};

pub fn bytes(record: Record) -> [u8; 12] {
    let [first, second] = record.mv.map(vector_bytes);
    let references = record.reference.map(|reference| reference as u8);
    let mut bytes = [first, second].concat();
    bytes.extend(references);
    bytes.extend([record.size, record.mf]);
    bytes.try_into().expect("the fields have 12 bytes")
}

/// Some well-formed record.
pub fn any(random: &mut SplitMix64) -> [u8; 12] {
    let reference = [random.within(0, 7), random.within(-1, 7)].map(|number| number as i8);
    bytes(Record {
        mv: reference.map(|reference| {
            // Without a reference the vector is free.
            let limit = if reference > 0 { 16_383 } else { i16::MAX };
            Vector {
                y: random.component(limit),
                x: random.component(limit),
            }
        }),
        reference,
        size: random.within(0, 21) as u8,
        mf: random.within(0, 3) as u8,
    })
}
