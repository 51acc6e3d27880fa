//! The parts of the comparison, each a function from the options to what it saw.

mod captures;
mod checks;
mod example;
mod finds;
mod jobs;
mod leaves;
mod list;
mod loads;
mod rows;
mod saves;
mod searches;
mod sequences;
mod setups;
mod shorts;
mod splats;

use crate::names;
use crate::options::Options;
use crate::tally::Tally;

pub type Part = fn(&Options) -> Result<Tally, String>;

/// All parts, in the order in which they run.
pub fn all() -> [(&'static str, Part); names::ALL.len()] {
    [
        (names::PROJECTION, leaves::projection),
        (names::PRECISION, leaves::precision),
        (names::DISTANCE, leaves::distance),
        (names::SETUP, setups::compare),
        (names::CHECK, checks::compare),
        (names::ROWS, rows::compare),
        (names::SPLAT, splats::compare),
        (names::SAVE, saves::compare),
        (names::LOAD, loads::compare),
        (names::JOBS, jobs::compare),
        (names::SEARCH, searches::compare),
        (names::SHORTS, shorts::compare),
        (names::CAPTURES, captures::compare),
        (names::FINDS, finds::compare),
        (names::SEQUENCES, sequences::compare),
        (names::LIST, list::compare),
        (names::EXAMPLE, example::compare),
    ]
}

#[cfg(test)]
mod tests {
    use super::*;

    #[test]
    fn every_name_has_its_part() {
        assert_eq!(all().map(|(name, _)| name), names::ALL);
    }
}
