//! The frame record in its 109 bytes, and the sizes that are lent for it.

use crate::calls;
use crate::calls::Description;
use crate::calls::Row;
use crate::refusal::ACCEPTED;
use crate::Tile;

/// A finished frame record, little-endian: width, height, iw4, ih4, iw8, ih8, superblock size,
/// stride, tile rows, blocks, tile threads, frame threads (u32 each); temporal search in use, the
/// header's temporal flag, selected references (bytes); seven times sign_bias, mfmv_sign (bytes) and
/// pocdiff (i16); three times a reference (byte), ref2cur (i16, -32,768 for a skipped one) and seven
/// ref2ref (bytes).
#[derive(Clone, Copy, Debug, PartialEq, Eq)]
pub struct Frame(pub [u8; Frame::LEN]);

/// How many cells and records are lent for a frame.
#[derive(Clone, Copy, Debug, PartialEq, Eq)]
pub struct Listed {
    pub saved: u32,
    pub projected: u32,
    pub records: u32,
}

impl Listed {
    /// Three u32.
    pub const LEN: usize = 12;
}

impl Frame {
    pub const LEN: usize = 109;

    /// Frame setup, or its refusal.
    pub fn set_up(description: &Description, present: &[u8]) -> Result<Self, u8> {
        let mut frame = [0; Self::LEN];
        match calls::init_frame(description, present, &mut frame) {
            ACCEPTED => Ok(Self(frame)),
            refusal => Err(refusal),
        }
    }

    /// 0, or 1 for a record that no call takes.
    pub fn check(&self) -> u8 {
        calls::check(&self.0)
    }

    /// The sizes to lend, or the refusal.
    pub fn listed_sizes(&self) -> Result<Listed, u8> {
        let mut sizes = [0; Listed::LEN];
        match calls::listed_sizes(&self.0, &mut sizes) {
            ACCEPTED => {
                let (numbers, _) = sizes.as_chunks();
                Ok(Listed {
                    saved: u32::from_le_bytes(numbers[0]),
                    projected: u32::from_le_bytes(numbers[1]),
                    records: u32::from_le_bytes(numbers[2]),
                })
            }
            refusal => Err(refusal),
        }
    }

    /// Superblock-row setup, or its refusal.
    pub fn tile(&self, row: &Row) -> Result<Tile, u8> {
        let mut tile = [0; Tile::LEN];
        match calls::tile_sbrow_init(&self.0, row, &mut tile) {
            ACCEPTED => Ok(Tile(tile)),
            refusal => Err(refusal),
        }
    }
}
