//! Squares cut into blocks of all sizes, as a stream has them.

use oracle::leaves;
use shared::split_mix::SplitMix64;

/// A block in units of 4 samples, with its size code.
#[derive(Clone, Copy, Debug, PartialEq, Eq)]
pub struct Block {
    pub y: usize,
    pub x: usize,
    pub width: usize,
    pub height: usize,
    pub code: u8,
}

/// Size codes by width and height.
pub struct Codes(Vec<[usize; 2]>);

impl Codes {
    pub fn new() -> Self {
        let sizes = (0..).map_while(leaves::size);
        let sides = sizes.map(|size| [size.width, size.height].map(usize::from));
        Self(sides.collect())
    }

    pub fn count(&self) -> usize {
        self.0.len()
    }

    pub fn shape(&self, code: u8) -> [usize; 2] {
        self.0[usize::from(code)]
    }

    fn of(&self, shape: [usize; 2]) -> Option<u8> {
        let at = self.0.iter().position(|&known| known == shape)?;
        Some(at as u8)
    }

    /// Cuts a square, whose side is a power of two up to 32: it stays whole, is cut into halves
    /// (some of them into two squares) or quarters, or into four squares that are cut in turn.
    pub fn cut(
        &self,
        random: &mut SplitMix64,
        at: [usize; 2],
        side: usize,
        blocks: &mut Vec<Block>,
    ) {
        let half = side / 2;
        match random.below(8) {
            0 | 1 => self.fill(at, [side; 2], [side; 2], blocks),
            2 if half > 0 => self.halves(random, at, [[0, 0], [half, 0]], [side, half], blocks),
            3 if half > 0 => self.halves(random, at, [[0, 0], [0, half]], [half, side], blocks),
            4 if self.of([side, side / 4]).is_some() => {
                self.fill(at, [side; 2], [side, side / 4], blocks);
            }
            5 if self.of([side / 4, side]).is_some() => {
                self.fill(at, [side; 2], [side / 4, side], blocks);
            }
            _ if half > 0 => {
                for [dy, dx] in [[0, 0], [0, half], [half, 0], [half, half]] {
                    self.cut(random, [at[0] + dy, at[1] + dx], half, blocks);
                }
            }
            _ => self.fill(at, [side; 2], [side; 2], blocks),
        }
    }

    /// Two rectangles, each whole or as two squares.
    fn halves(
        &self,
        random: &mut SplitMix64,
        [y, x]: [usize; 2],
        starts: [[usize; 2]; 2],
        [width, height]: [usize; 2],
        blocks: &mut Vec<Block>,
    ) {
        let short = width.min(height);
        for [dy, dx] in starts {
            let shape = [[width, height], [short, short]][random.below(2)];
            self.fill([y + dy, x + dx], [width, height], shape, blocks);
        }
    }

    /// Blocks of one shape over a rectangle.
    fn fill(
        &self,
        [y, x]: [usize; 2],
        [across, down]: [usize; 2],
        [width, height]: [usize; 2],
        blocks: &mut Vec<Block>,
    ) {
        let code = self.of([width, height]).expect("the shape has a code");
        for dy in (0..down).step_by(height) {
            for dx in (0..across).step_by(width) {
                blocks.push(Block {
                    y: y + dy,
                    x: x + dx,
                    width,
                    height,
                    code,
                });
            }
        }
    }
}

impl Default for Codes {
    fn default() -> Self {
        Self::new()
    }
}

#[cfg(test)]
mod tests {
    use super::*;

    #[test]
    fn squares_are_covered_once_by_all_sizes() {
        let (codes, mut random) = (Codes::new(), SplitMix64::new(1));
        let mut seen = [0; 22];
        for _ in 0..1000 {
            let mut blocks = Vec::new();
            codes.cut(&mut random, [64, 32], 32, &mut blocks);
            let mut places = vec![0; 32 * 32];
            for block in &blocks {
                assert_eq!(block.y % block.height + block.x % block.width, 0);
                seen[usize::from(block.code)] += 1;
                for dy in 0..block.height {
                    let first = 32 * (block.y + dy - 64) + block.x - 32;
                    places[first..][..block.width]
                        .iter_mut()
                        .for_each(|n| *n += 1);
                }
            }
            assert!(places.iter().all(|&n| n == 1));
        }
        assert!(seen.iter().all(|&n| n > 0), "{seen:?}");
    }
}
