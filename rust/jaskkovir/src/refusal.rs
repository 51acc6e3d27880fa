//! Document 01's refusal numbers.

/// No refusal.
pub const ACCEPTED: u8 = 0;

/// A width or height that isn't 1 to 16,384, tile rows that aren't 1 to 64, thread counts that
/// aren't 1 to 255, a flag that isn't 0 or 1; in a frame record, a size that doesn't follow from
/// these or a field out of setup's range.
pub const SIZE: u8 = 1;

/// Hint bits above 8, or a hint that isn't below 2^bits.
pub const HINT: u8 = 2;

/// Rows or columns that end before they start, more than 16 rows, a column end above the stride; a
/// tile row, after the one-thread rule, that isn't below the tile rows.
pub const RANGE: u8 = 3;

/// A lent part that is too short, or a record or cell needed that is past the listed ones.
pub const BUFFER: u8 = 4;

/// A used reference's field isn't lent.
pub const FIELD_ABSENT: u8 = 5;

/// An entry of the row table that is needed is absent, or past its 37 places.
pub const ROW_ABSENT: u8 = 6;

/// A motion cell that is read isn't well formed.
pub const CELL: u8 = 7;

/// A record that is read isn't well formed.
pub const RECORD: u8 = 8;

/// A saved block passes its column limit; a later scan neighbour is as large as the block.
pub const LIMIT: u8 = 9;

/// A block outside its tile or its row of records, a splat that isn't 1 to 32 wide and high, a tile
/// that ends past the frame, a record to be splatted that isn't well formed; a size code above 21,
/// references that aren't (0..7, -1) or (1..7, 1..7), reference 0 with temporal search on, a used
/// global vector beyond 16,383.
pub const BLOCK: u8 = 10;

/// Two jobs' windows share a cell.
pub const SHARED: u8 = 11;

/// No job or more than 8, a step that names no job, a job kind that isn't 0 or 1, a pass that isn't
/// 1 or 2, steps done above the job's count.
pub const JOB: u8 = 12;

/// A malformed capture.
pub const CAPTURE: u8 = 13;
