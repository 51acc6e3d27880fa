//! Distances between hints, at the limits of each number of bits.

use crate::leaf::case::Case;
use crate::split_mix::SplitMix64;

pub fn cases(random: &mut SplitMix64) -> Vec<Case> {
    let mut cases = Vec::new();
    for bits in 0..=3 {
        let hints: Vec<u8> = (0..1 << bits).collect();
        cases.extend(pairs(bits, &hints));
    }
    for bits in 4..=8 {
        let last = (1u16 << bits) - 1;
        let half = 1 << (bits - 1);
        let limits = [0, 1, half - 1, half, half + 1, last - 1, last].map(|hint| hint as u8);
        cases.extend(pairs(bits, &limits));
        let mut hint = || random.within(0, last.into()) as u8;
        cases.extend((0..16).map(|_| Case::Distance {
            bits,
            a: hint(),
            b: hint(),
        }));
    }
    cases
}

/// Each of the hints against each.
fn pairs(bits: u8, hints: &[u8]) -> Vec<Case> {
    hints
        .iter()
        .flat_map(|&a| hints.iter().map(move |&b| Case::Distance { bits, a, b }))
        .collect()
}
