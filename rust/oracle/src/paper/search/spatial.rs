//! Scans along the rows above and the columns left of the block, and the two points.

use super::reads::Neighbour;
use super::Search;

/// What a point weighs.
const POINT: i64 = 4;

/// Which sides have a match, and whether a matching block has a new vector.
#[derive(Clone, Copy, Default)]
pub(super) struct Matches {
    above: bool,
    left: bool,
    pub new: bool,
}

impl Matches {
    pub fn sides(&self) -> i64 {
        i64::from(self.above) + i64::from(self.left)
    }
}

#[derive(Clone, Copy, PartialEq, Eq)]
pub(super) enum Side {
    Above,
    Left,
}

/// Lines of neighbours on each side that have been taken, and how many there may be.
pub(super) struct Lines {
    above: Taken,
    left: Taken,
}

struct Taken {
    most: i64,
    done: i64,
}

/// A line of neighbours, by the entry and column of its start.
struct Line {
    side: Side,
    entry: i64,
    column: i64,
    /// Each neighbour counts at least for so many places.
    step: i64,
    /// How many lines there may be, this one and farther ones.
    left: i64,
}

impl Search<'_> {
    /// The row above, the column left and the point above right.
    pub fn nearest(&mut self) -> Result<Lines, u8> {
        let mut lines = Lines {
            above: self.none_taken(Side::Above),
            left: self.none_taken(Side::Left),
        };
        if self.place.has_above() {
            let line = self.near_line(Side::Above, lines.above.most);
            lines.above.done = self.scan(&line)?;
        }
        if self.place.has_left() {
            let line = self.near_line(Side::Left, lines.left.most);
            lines.left.done = self.scan(&line)?;
        }
        let place = &self.place;
        let end = place.column + place.width;
        let small = place.width.max(place.height) <= 16;
        if place.has_above() && self.above_right && small && end < place.column_end {
            self.point(end)?;
        }
        Ok(lines)
    }

    /// The point above left, then by turns the farther rows and columns, two lines away each.
    pub fn farther(&mut self, mut lines: Lines) -> Result<(), u8> {
        if self.place.has_above() && self.place.has_left() {
            self.point(self.place.column - 1)?;
        }
        for n in 2..=3 {
            if lines.above.wants(n) {
                let line = self.far_line(Side::Above, n, lines.above.most);
                lines.above.done += self.scan(&line)?;
            }
            if lines.left.wants(n) {
                let line = self.far_line(Side::Left, n, lines.left.most);
                lines.left.done += self.scan(&line)?;
            }
        }
        Ok(())
    }

    /// At most three lines, two for a block that is one place thick, all inside the tile. Lines
    /// count in pairs of places but for the first.
    fn none_taken(&self, side: Side) -> Taken {
        let place = &self.place;
        let (room, thick) = match side {
            Side::Above => (place.row - place.row_start, place.height),
            Side::Left => (place.column - place.column_start, place.width),
        };
        let most = if thick > 1 { 3 } else { 2 };
        Taken {
            most: most.min((room + 1) / 2),
            done: 0,
        }
    }

    fn near_line(&self, side: Side, most: i64) -> Line {
        let (entry, column) = match side {
            Side::Above => (self.place.entry(-1), self.place.column),
            Side::Left => (self.place.entry(0), self.place.column - 1),
        };
        Line {
            side,
            entry,
            column,
            step: self.step(side, 1),
            left: most,
        }
    }

    /// Everything is in pairs of places: the line's own place and the start along it are the odd
    /// ones.
    fn far_line(&self, side: Side, n: i64, most: i64) -> Line {
        let odd = |at: i64| at | 1;
        let away = 2 * n - 1;
        let row = self.place.row % 32;
        let (row, column) = match side {
            Side::Above => (odd(row - away), odd(self.place.column)),
            Side::Left => (odd(row), odd(self.place.column - away)),
        };
        Line {
            side,
            entry: row + 5,
            column,
            step: self.step(side, 2),
            left: most + 1 - n,
        }
    }

    fn step(&self, side: Side, least: i64) -> i64 {
        match self.length(side) >= 16 {
            true => 4,
            false => least,
        }
    }

    /// The block's length along its side.
    fn length(&self, side: Side) -> i64 {
        match side {
            Side::Above => self.place.width,
            Side::Left => self.place.height,
        }
    }

    /// Takes a line, and tells how many it counts for: a neighbour that covers the whole side is
    /// taken at once for the lines that it covers.
    fn scan(&mut self, line: &Line) -> Result<i64, u8> {
        let length = self.length(line.side);
        let end = match line.side {
            Side::Above => self.place.across,
            Side::Left => self.place.down,
        };
        let mut neighbour = self.neighbour(line, 0)?;
        let (along, thick) = neighbour.sides(line.side);
        if along >= length {
            let lines = if length == 1 { 1 } else { line.lines_of(thick) };
            self.take(line.side, &neighbour, 2 * lines * length.max(line.step));
            return Ok(lines);
        }
        let mut at = 0;
        loop {
            let (along, _) = neighbour.sides(line.side);
            let counted = along.max(line.step);
            self.take(line.side, &neighbour, 2 * counted);
            at += counted;
            if at >= end {
                return Ok(1);
            }
            neighbour = self.neighbour(line, at)?;
            if neighbour.sides(line.side).0 >= length {
                return Err(9);
            }
        }
    }

    fn neighbour(&mut self, line: &Line, at: i64) -> Result<Neighbour, u8> {
        match line.side {
            Side::Above => self.reads.record(line.entry, line.column + at),
            Side::Left => self.reads.record(line.entry + at, line.column),
        }
    }

    /// A point of the row above.
    fn point(&mut self, column: i64) -> Result<(), u8> {
        let neighbour = self.reads.record(self.place.entry(-1), column)?;
        self.take(Side::Above, &neighbour, POINT);
        Ok(())
    }

    /// A match is noted also where the stack is full.
    fn take(&mut self, side: Side, neighbour: &Neighbour, weight: i64) {
        let Some(pair) = self.wanted.lent_by(neighbour) else {
            return;
        };
        self.stack.add(pair, weight);
        match side {
            Side::Above => self.matches.above = true,
            Side::Left => self.matches.left = true,
        }
        self.matches.new |= neighbour.new;
    }
}

impl Taken {
    fn wants(&self, n: i64) -> bool {
        self.done < n && n <= self.most
    }
}

impl Line {
    fn lines_of(&self, thick: i64) -> i64 {
        (thick / 2).min(self.left).max(1)
    }
}

impl Neighbour {
    /// Its length along a side, and across.
    fn sides(&self, side: Side) -> (i64, i64) {
        match side {
            Side::Above => (self.width, self.height),
            Side::Left => (self.height, self.width),
        }
    }
}
