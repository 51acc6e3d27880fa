//! Records: each size, each pair of references, and any bytes.

use crate::leaf::case::vector_bytes;
use crate::leaf::case::Case;
use crate::split_mix::SplitMix64;
use oracle::leaves::Vector;

const SIZES: u8 = 22;

const VECTORS: [(i16, i16); 8] = [
    (0, 0),
    (i16::MIN, i16::MIN),
    (i16::MIN, i16::MAX),
    (i16::MAX, -1),
    (16383, -16383),
    (-16384, 16384),
    (4095, 4096),
    (-256, 255),
];

const ODD_REFERENCES: [[i8; 2]; 6] = [
    [-128, 127],
    [127, -128],
    [8, 8],
    [-2, -2],
    [31, -31],
    [85, -86],
];

pub fn cases(random: &mut SplitMix64) -> Vec<Case> {
    let mut cases = Vec::new();
    cases.extend((0..SIZES).map(|size| Case::Record([0, 0, 0, 0, 0, 0, 0, 0, 1, 255, size, 0])));
    for _ in 0..3 {
        cases.extend((0..SIZES).map(|size| with(random, 10, [size])));
    }
    cases.extend((0..=255).map(|mf| with(random, 11, [mf])));
    cases.extend(
        references()
            .into_iter()
            .map(|pair| with(random, 8, pair.map(|reference| reference as u8))),
    );
    cases.extend(
        vectors()
            .into_iter()
            .map(|[first, second]| with_vectors(random, first, second)),
    );
    cases.extend((0..150).map(|_| Case::Record(any(random))));
    cases
}

/// Random bytes with a size code among them.
fn any(random: &mut SplitMix64) -> [u8; 12] {
    let mut bytes: [u8; 12] = random.bytes();
    bytes[10] %= SIZES;
    bytes
}

/// A random record but for the bytes from `at`.
fn with<const N: usize>(random: &mut SplitMix64, at: usize, part: [u8; N]) -> Case {
    let mut bytes = any(random);
    bytes[at..at + N].copy_from_slice(&part);
    Case::Record(bytes)
}

fn with_vectors(random: &mut SplitMix64, first: Vector, second: Vector) -> Case {
    let part: Vec<u8> = [first, second].into_iter().flat_map(vector_bytes).collect();
    with::<8>(random, 0, part.try_into().expect("two vectors"))
}

/// All pairs of -1..7, and some that no record should have.
fn references() -> Vec<[i8; 2]> {
    let mut pairs: Vec<_> = (-1..=7)
        .flat_map(|first| (-1..=7).map(move |second| [first, second]))
        .collect();
    pairs.extend(ODD_REFERENCES);
    pairs
}

fn vectors() -> Vec<[Vector; 2]> {
    let vectors = VECTORS.map(|(y, x)| Vector { y, x });
    vectors
        .into_iter()
        .flat_map(|first| vectors.map(|second| [first, second]))
        .collect()
}
