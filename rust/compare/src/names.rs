//! The names of the parts, as the options ask for them and the output has them.

pub const PROJECTION: &str = "projection";
pub const PRECISION: &str = "precision";
pub const DISTANCE: &str = "distance";
pub const SETUP: &str = "setup";
pub const CHECK: &str = "check";
pub const ROWS: &str = "rows";
pub const SPLAT: &str = "splat";
pub const SAVE: &str = "save";
pub const LOAD: &str = "load";
pub const JOBS: &str = "jobs";
pub const SEARCH: &str = "search";
pub const SHORTS: &str = "shorts";
pub const CAPTURES: &str = "captures";
pub const FINDS: &str = "finds";
pub const SEQUENCES: &str = "sequences";
pub const LIST: &str = "list";
pub const EXAMPLE: &str = "example";

/// In the order in which they run.
pub const ALL: [&str; 17] = [
    PROJECTION, PRECISION, DISTANCE, SETUP, CHECK, ROWS, SPLAT, SAVE, LOAD, JOBS, SEARCH, SHORTS,
    CAPTURES, FINDS, SEQUENCES, LIST, EXAMPLE,
];
