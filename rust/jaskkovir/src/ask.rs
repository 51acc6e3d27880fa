//! A candidate search's question, in numbers and in its 24 bytes.

use crate::leaves::Vector;

/// What a candidate search is asked. In bytes, little-endian: two references (i8), size code, whether
/// the point above right is decoded; row and column in 4-sample units (u32); twice a global vector y,
/// x (i16) and whether its type is above translation; integer vectors, high precision.
#[derive(Clone, Copy, Debug, PartialEq, Eq)]
pub struct Ask {
    /// The second is -1 in a single search. (0, -1) is for intra block copies.
    pub references: [i8; 2],
    pub size: u8,
    pub above_right: u8,
    pub y: u32,
    pub x: u32,
    /// Of both references; that of an absent one isn't used.
    pub globals: [Global; 2],
    pub integer: u8,
    pub hp: u8,
}

/// A reference's global vector.
#[derive(Clone, Copy, Debug, PartialEq, Eq)]
pub struct Global {
    pub vector: Vector,
    /// 1 where its type is above translation.
    pub above: u8,
}

impl Ask {
    pub const LEN: usize = 24;

    pub fn to_bytes(&self) -> [u8; Self::LEN] {
        let mut bytes = [0; Self::LEN];
        let references = self.references.map(|reference| reference as u8);
        bytes[..2].copy_from_slice(&references);
        bytes[2..4].copy_from_slice(&[self.size, self.above_right]);
        bytes[4..8].copy_from_slice(&self.y.to_le_bytes());
        bytes[8..12].copy_from_slice(&self.x.to_le_bytes());
        bytes[12..17].copy_from_slice(&self.globals[0].to_bytes());
        bytes[17..22].copy_from_slice(&self.globals[1].to_bytes());
        bytes[22..].copy_from_slice(&[self.integer, self.hp]);
        bytes
    }

    pub fn from_bytes(bytes: &[u8; Self::LEN]) -> Self {
        let number = |at: usize| u32::from_le_bytes(std::array::from_fn(|i| bytes[at + i]));
        Self {
            references: [bytes[0] as i8, bytes[1] as i8],
            size: bytes[2],
            above_right: bytes[3],
            y: number(4),
            x: number(8),
            globals: [12, 17].map(|at| Global::from_bytes(&bytes[at..])),
            integer: bytes[22],
            hp: bytes[23],
        }
    }
}

impl Global {
    fn to_bytes(self) -> [u8; 5] {
        let [y, x] = [self.vector.y, self.vector.x].map(i16::to_le_bytes);
        [y[0], y[1], x[0], x[1], self.above]
    }

    fn from_bytes(bytes: &[u8]) -> Self {
        let number = |at: usize| i16::from_le_bytes([bytes[at], bytes[at + 1]]);
        let vector = Vector {
            y: number(0),
            x: number(2),
        };
        Self {
            vector,
            above: bytes[4],
        }
    }
}
