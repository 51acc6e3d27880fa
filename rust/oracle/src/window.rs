//! The window of a load or a save.

/// What a load or a save covers, in 8-sample units.
#[derive(Clone, Copy, Debug, PartialEq, Eq)]
pub struct Window {
    pub tile_row: u32,
    pub col_start: u32,
    pub col_end: u32,
    pub row_start: u32,
    pub row_end: u32,
}

impl Window {
    /// The numbers in the order of the Rust's arguments to a load.
    pub fn numbers(&self) -> [u32; 5] {
        [
            self.tile_row,
            self.col_start,
            self.col_end,
            self.row_start,
            self.row_end,
        ]
    }

    pub(crate) fn real(&self) -> [i32; 5] {
        self.numbers().map(real)
    }
}

pub(crate) fn real(number: u32) -> i32 {
    number.try_into().expect("a number fits the Rust's type")
}
