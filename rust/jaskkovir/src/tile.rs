//! The tile in its 168 bytes.

use crate::calls;
use crate::calls::Block;
use crate::Frame;

/// A superblock row's tile, 42 u32, little-endian: the 37 entries of its row table (4,294,967,295
/// for an absent one), the place of its part of the projection, column start and end, row start and
/// end.
#[derive(Clone, Copy, Debug, PartialEq, Eq)]
pub struct Tile(pub [u8; Tile::LEN]);

impl Tile {
    pub const LEN: usize = 168;

    /// Splat.
    pub fn splat(&self, frame: &Frame, record: &[u8; 12], block: &Block, records: &mut [u8]) -> u8 {
        calls::splat_mv(&frame.0, &self.0, record, block, records)
    }
}
