//! Records that a save reads.

use crate::record;
use crate::split_mix::SplitMix64;
use oracle::leaves;
use oracle::leaves::Record;
use oracle::leaves::Vector;
use std::ops::RangeInclusive;

/// One 8-sample unit wide, with a vector that is saved where its reference is behind the frame.
pub const PLAIN: Record = Record {
    mv: [Vector { y: 5, x: -6 }, Vector { y: 0, x: 0 }],
    reference: [1, -1],
    size: 17,
    mf: 0,
};

pub const SIZES: RangeInclusive<u8> = 0..=21;

/// A size's width in 8-sample units, halved upwards.
pub fn width(size: u8) -> u32 {
    let size = leaves::size(size).expect("a size code");
    u32::from(size.width).div_ceil(2)
}

/// A well-formed record that isn't wider than this; most of its components may be saved.
pub fn any(random: &mut SplitMix64, widest: u32) -> [u8; 12] {
    let sizes: Vec<u8> = SIZES.filter(|&size| width(size) <= widest).collect();
    let reference = [random.within(0, 7), random.within(-1, 7)].map(|number| number as i8);
    record::bytes(Record {
        mv: reference.map(|reference| Vector {
            y: component(random, reference),
            x: component(random, reference),
        }),
        reference,
        size: sizes[random.below(sizes.len())],
        mf: random.within(0, 3) as u8,
    })
}

fn component(random: &mut SplitMix64, reference: i8) -> i16 {
    if reference < 1 {
        // Without a reference the vector is free.
        return [i16::MIN, i16::MAX, 0, 1][random.below(4)];
    }
    match random.below(10) {
        0 => [4095, -4095][random.below(2)],
        1 => [4096, -4096][random.below(2)],
        2 => random.component(16_383),
        _ => random.component(4095),
    }
}
