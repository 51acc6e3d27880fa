//! What is asked of superblock-row setup, of a splat, a save and a search, in plain numbers, and what a search
//! answers: the paper is asked it and so is the Rust.

use crate::leaves::Vector;
use crate::window;
use crate::Window;

/// What a superblock row is set up from. Bounds are in 4-sample units.
#[derive(Clone, Copy, Debug, PartialEq, Eq)]
pub struct RowPlace {
    pub col_start: u32,
    pub col_end: u32,
    pub row_start: u32,
    pub row_end: u32,
    pub superblock_row: u32,
    pub tile_row: u32,
    pub pass: u32,
}

impl RowPlace {
    /// The numbers in the order of the Rust's arguments.
    pub fn numbers(&self) -> [u32; 7] {
        [
            self.col_start,
            self.col_end,
            self.row_start,
            self.row_end,
            self.superblock_row,
            self.tile_row,
            self.pass,
        ]
    }
}

/// A block in 4-sample units.
#[derive(Clone, Copy, Debug, PartialEq, Eq)]
pub struct Block {
    pub by4: u32,
    pub bx4: u32,
    pub width: u32,
    pub height: u32,
}

/// What a save covers, and whose row table it reads.
#[derive(Clone, Copy, Debug, PartialEq, Eq)]
pub struct SavePlace {
    pub window: Window,
    pub superblock_row: u32,
    pub pass: u32,
}

impl SavePlace {
    /// No cell, for buffers that are made before a place is known.
    pub const NOWHERE: Self = Self {
        window: Window {
            tile_row: 0,
            col_start: 0,
            col_end: 0,
            row_start: 0,
            row_end: 0,
        },
        superblock_row: 0,
        pass: 1,
    };

    /// The window's numbers, then the superblock row and the pass.
    pub fn numbers(&self) -> [u32; 7] {
        let [tile_row, col_start, col_end, row_start, row_end] = self.window.numbers();
        [
            tile_row,
            col_start,
            col_end,
            row_start,
            row_end,
            self.superblock_row,
            self.pass,
        ]
    }

    pub(crate) fn real(&self) -> [i32; 7] {
        self.numbers().map(window::real)
    }
}

/// The places of a candidate stack.
pub const SLOTS: usize = 8;

/// The bytes of such a place: two vectors and a weight (u32).
pub const SLOT_LEN: usize = 12;

/// What a search is asked. Flags are bytes, since the port takes any.
#[derive(Clone, Copy, Debug, PartialEq, Eq)]
pub struct Ask {
    pub references: [i8; 2],
    pub size: u8,
    /// Whether the point above right is decoded.
    pub above_right: u8,
    pub by4: u32,
    pub bx4: u32,
    /// Of both references.
    pub globals: [Global; 2],
    pub integer: u8,
    pub hp: u8,
}

/// A reference's global vector.
#[derive(Clone, Copy, Debug, PartialEq, Eq)]
pub struct Global {
    pub mv: Vector,
    /// Whether its type is above translation.
    pub above: u8,
}

impl Global {
    pub const NONE: Self = Self {
        mv: Vector { y: 0, x: 0 },
        above: 0,
    };
}

impl Ask {
    pub fn is_compound(&self) -> bool {
        self.references[1] > 0
    }

    /// The references that have a global vector, each with it.
    pub(crate) fn used_globals(&self) -> impl Iterator<Item = (i8, Global)> {
        let pairs = self.references.into_iter().zip(self.globals);
        pairs.filter(|(reference, _)| (1..=7).contains(reference))
    }
}

/// What a search finds.
#[derive(Clone, Copy, Debug, PartialEq, Eq)]
pub struct Answer {
    pub count: u8,
    pub context: u8,
    pub stack: [Candidate; SLOTS],
}

#[derive(Clone, Copy, Debug, PartialEq, Eq)]
pub struct Candidate {
    pub mv: [Vector; 2],
    pub weight: u32,
}

impl Answer {
    /// Lays what document 01 fixes over a lent stack: weight and used vectors below the count, and
    /// in a single search the first vector of slots count..1.
    pub fn lay(&self, compound: bool, stack: &mut [u8; SLOTS * SLOT_LEN]) {
        let count = usize::from(self.count);
        let (slots, _) = stack.as_chunks_mut::<SLOT_LEN>();
        for (at, (slot, candidate)) in slots.iter_mut().zip(&self.stack).enumerate() {
            let [first, second] = candidate.mv.map(vector_bytes);
            if at < count || (at < 2 && !compound) {
                slot[..4].copy_from_slice(&first);
            }
            if at < count {
                slot[8..].copy_from_slice(&candidate.weight.to_le_bytes());
                if compound {
                    slot[4..8].copy_from_slice(&second);
                }
            }
        }
    }
}

fn vector_bytes(Vector { y, x }: Vector) -> [u8; 4] {
    let [y, x] = [y, x].map(i16::to_le_bytes);
    [y[0], y[1], x[0], x[1]]
}
