//! Records and cells that have much in common, so that searches find the same vectors often.

use crate::records;
use shared::split_mix::SplitMix64;

const INVALID: i16 = i16::MIN;

/// References and vectors that most records of a frame have.
pub struct Palette {
    references: [i8; 3],
    vectors: Vec<[i16; 2]>,
    /// Whether most blocks are intra blocks, some of them copies.
    pub intra: bool,
    /// How many cells of a hundred are there.
    filled: usize,
}

impl Palette {
    /// One for frames without intra block copies, with so many cells of a hundred filled.
    pub fn filled(random: &mut SplitMix64, filled: usize) -> Self {
        Self {
            filled,
            ..Self::new(random, false)
        }
    }

    pub fn new(random: &mut SplitMix64, intra: bool) -> Self {
        let reach = [3, 40, 600, 4095][random.below(4)];
        let vectors = (0..2 + random.below(8)).map(|_| [(); 2].map(|_| random.component(reach)));
        Self {
            vectors: vectors.collect(),
            references: [(); 3].map(|_| random.within(1, 7) as i8),
            intra,
            filled: [0, 5, 50, 100][random.below(4)],
        }
    }

    /// A reference of the frame's, seldom another.
    pub fn reference(&self, random: &mut SplitMix64) -> i8 {
        match random.below(12) {
            0 => random.within(1, 7) as i8,
            at => self.references[at % 3],
        }
    }

    pub fn vector(&self, random: &mut SplitMix64) -> [i16; 2] {
        match random.below(24) {
            0 => [(); 2].map(|_| [16_383, -16_383, 4096, 0][random.below(4)]),
            1 => [(); 2].map(|_| random.component(16_383)),
            _ => self.vectors[random.below(self.vectors.len())],
        }
    }

    /// A well-formed record.
    pub fn record(&self, random: &mut SplitMix64, code: u8) -> [u8; 12] {
        let kind = match self.intra {
            true => random.below(5),
            false => random.below(16),
        };
        let references = match kind {
            0 => return with_code(records::any(random), code),
            1..=4 => [0, -1],
            5..=10 => [self.reference(random), -1],
            11 => [self.reference(random), 0],
            _ => [self.reference(random), self.reference(random)],
        };
        let mut mv = [self.vector(random), self.vector(random)];
        if references[0] == 0 && random.below(2) == 0 {
            mv[0] = [INVALID; 2];
        }
        let [first, second] = references.map(|reference| reference as u8);
        let mut bytes = [0; 12];
        for (at, component) in mv.as_flattened().iter().enumerate() {
            bytes[2 * at..2 * at + 2].copy_from_slice(&component.to_le_bytes());
        }
        bytes[8..].copy_from_slice(&[first, second, code, random.below(4) as u8]);
        bytes
    }

    /// A well-formed projected cell.
    pub fn cell(&self, random: &mut SplitMix64) -> [u8; 5] {
        if random.below(100) >= self.filled {
            let [any] = random.bytes();
            return cell([INVALID; 2], any);
        }
        let vector = match random.below(16) {
            0 => [(); 2].map(|_| [4095, -4095][random.below(2)]),
            1 => [(); 2].map(|_| random.component(4095)),
            _ => self.vectors[random.below(self.vectors.len())],
        };
        let most = [4, 31][random.below(2)];
        cell(vector, random.within(1, most) as u8)
    }
}

fn with_code(mut record: [u8; 12], code: u8) -> [u8; 12] {
    record[10] = code;
    record
}

fn cell(vector: [i16; 2], reference: u8) -> [u8; 5] {
    let [y, x] = vector.map(i16::to_le_bytes);
    [y[0], y[1], x[0], x[1], reference]
}
