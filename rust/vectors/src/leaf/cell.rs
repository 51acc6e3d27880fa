//! Cells: vectors that are INVALID or nearly so, and any reference.

use crate::leaf::case::vector_bytes;
use crate::leaf::case::Case;
use crate::split_mix::SplitMix64;
use oracle::leaves::Vector;

/// `INVALID` is this in both components, and in both only.
const ABSENT: i16 = i16::MIN;

const VECTORS: [(i16, i16); 14] = [
    (0, 0),
    (ABSENT, ABSENT),
    (ABSENT, 0),
    (0, ABSENT),
    (ABSENT, ABSENT + 1),
    (ABSENT + 1, ABSENT),
    (ABSENT, i16::MAX),
    (i16::MAX, ABSENT),
    (i16::MAX, i16::MAX),
    (-1, -1),
    (1, -256),
    (255, 256),
    (4095, -4095),
    (4096, -4096),
];

const REFERENCES: [i8; 12] = [0, 1, 2, 3, 4, 5, 6, 7, 31, -1, -128, 127];

pub fn cases(random: &mut SplitMix64) -> Vec<Case> {
    let mut cases = Vec::new();
    for (y, x) in VECTORS {
        cases.extend(REFERENCES.map(|reference| case(y, x, reference)));
    }
    for _ in 0..10 {
        let [other, reference] = [i16::MAX, 127].map(|limit| random.component(limit));
        cases.push(case(ABSENT, other, reference as i8));
        cases.push(case(other, ABSENT, reference as i8));
    }
    cases.extend((0..160).map(|_| Case::Cell(random.bytes())));
    cases
}

fn case(y: i16, x: i16, reference: i8) -> Case {
    let [y0, y1, x0, x1] = vector_bytes(Vector { y, x });
    Case::Cell([y0, y1, x0, x1, reference as u8])
}
