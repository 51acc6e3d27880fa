//! Candidates from the projection.

use super::reads::Projected;
use super::Mv;
use super::Search;

/// What a cell weighs.
const WEIGHT: i64 = 2;

/// A tile row's part of the projection has so many rows.
const ROWS: i64 = 16;

/// Cells beside the block are taken from its own 64 x 64 samples.
const GROUP: i64 = 8;

impl Search<'_> {
    /// The block's cells by row, then column; then below left, below right and right.
    pub fn temporal(&mut self) -> Result<(), u8> {
        if self.record.use_ref_frame_mvs == 0 {
            return Ok(());
        }
        let place = &self.place;
        let cells = |length: i64| (length + 1) / 2;
        let step = |length: i64| if length >= 16 { 2 } else { 1 };
        let [rows, columns] = [0..cells(place.down), 0..cells(place.across)];
        let [down, across] = [step(place.height), step(place.width)];
        for dy in rows.step_by(down) {
            for dx in columns.clone().step_by(across) {
                let found = self.cell(dy, dx)?;
                self.project(found, [dy, dx] == [0, 0]);
            }
        }
        let sides = [self.place.width, self.place.height];
        if sides.iter().all(|side| (2..16).contains(side)) {
            let [width, height] = sides.map(|side| side / 2);
            for [dy, dx] in [[height, -1], [height, width], [height - 1, width]] {
                if self.is_near(dy, dx) {
                    let found = self.cell(dy, dx)?;
                    self.project(found, false);
                }
            }
        }
        Ok(())
    }

    /// Whether a cell lies in the tile and in the block's own group.
    fn is_near(&self, dy: i64, dx: i64) -> bool {
        let place = &self.place;
        let within = |at: i64, by: i64, [start, end]: [i64; 2]| {
            let group = at - at % GROUP;
            let cells = group.max(start / 2)..(group + GROUP).min(end / 2);
            cells.contains(&(at + by))
        };
        within(place.row / 2, dy, [place.row_start, place.row_end])
            && within(place.column / 2, dx, [place.column_start, place.column_end])
    }

    fn cell(&mut self, dy: i64, dx: i64) -> Result<Option<Projected>, u8> {
        let row = self.place.row / 2 % ROWS + dy;
        let column = self.place.column / 2 + dx;
        self.reads.projected(row, column)
    }

    /// Towards both wanted references. The first cell, if it is there, decides the zero context.
    fn project(&mut self, found: Option<Projected>, first: bool) {
        let Some(found) = found else {
            return;
        };
        let towards = |at: usize| {
            let reference = self.wanted.references[at] as usize;
            self.lowered(projected(&found, self.wanted.distances[reference - 1]))
        };
        let pair = match self.wanted.compound {
            true => [towards(0), towards(1)],
            false => [towards(0), [0; 2]],
        };
        if first {
            let mut apart = pair[0].iter().zip(self.wanted.globals[0]);
            self.zero = apart.any(|(a, b)| (a - b).abs() >= 16).into();
        }
        self.stack.add(pair, WEIGHT);
    }

    fn lowered(&self, mv: Mv) -> Mv {
        mv.map(|component| {
            let size = component.abs();
            let lowered = match (self.integer, self.hp) {
                (true, _) => (size + 3) / 8 * 8,
                (false, false) => size - size % 2,
                (false, true) => size,
            };
            lowered * component.signum()
        })
    }
}

/// Over the distance asked for instead of its own: rounded to nearest, halves away from zero.
fn projected(found: &Projected, distance: i64) -> Mv {
    let factor = distance * (16_384 / found.distance);
    found.mv.map(|component| {
        let product = component * factor;
        let rounded = (product.abs() + 8192) / 16_384;
        (rounded * product.signum()).clamp(-16_383, 16_383)
    })
}
