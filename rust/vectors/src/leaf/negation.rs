//! Vectors that are turned.

use crate::leaf::case::Case;
use crate::split_mix::SplitMix64;
use oracle::leaves::Vector;

/// The Rust's own negation of -32768 overflows, so it isn't among the cases.
const LIMIT: i16 = i16::MAX;

const COMPONENTS: [i16; 17] = [
    0,
    1,
    -1,
    2,
    -2,
    255,
    -256,
    4095,
    -4095,
    4096,
    -4096,
    16383,
    -16384,
    LIMIT - 1,
    1 - LIMIT,
    LIMIT,
    -LIMIT,
];

pub fn cases(random: &mut SplitMix64) -> Vec<Case> {
    let mut cases = Vec::new();
    for shift in 0..4 {
        // Tripling permutes the seventeen places; the shift pairs them differently.
        cases.extend((0..COMPONENTS.len()).map(|i| {
            Case::Negation(Vector {
                y: COMPONENTS[i],
                x: COMPONENTS[(3 * i + shift) % COMPONENTS.len()],
            })
        }));
    }
    cases.extend((0..150).map(|_| {
        Case::Negation(Vector {
            y: random.component(LIMIT),
            x: random.component(LIMIT),
        })
    }));
    cases
}
