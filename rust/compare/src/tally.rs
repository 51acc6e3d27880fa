//! What a part has seen: cases, refusals, differences with the smallest inputs.

use std::fmt;
use std::fmt::Display;
use std::fmt::Formatter;

/// How many of the smallest differing inputs are kept.
const KEPT: usize = 3;

/// What a part has seen.
#[derive(Default)]
pub struct Tally {
    /// How often each answer was right to give: acceptance, then the refusals.
    answers: [u64; 14],
    /// Accepted cases that the Rust can't be asked.
    paper_alone: u64,
    differences: u64,
    /// What else is to be told of the cases.
    pub note: String,
    /// With a measure of their size, by which they stand in order.
    smallest: Vec<(u64, String)>,
}

impl Tally {
    /// Counts a case by the answer that it should have.
    pub fn count(&mut self, answer: u8) {
        self.answers[usize::from(answer)] += 1;
    }

    /// Counts many cases that are all accepted.
    pub fn count_accepted(&mut self, cases: u64) {
        self.answers[0] += cases;
    }

    /// Counts an accepted case that only the paper decided.
    pub fn count_paper_alone(&mut self) {
        self.paper_alone += 1;
    }

    /// Keeps a differing input where it is among the smallest.
    pub fn differ(&mut self, size: u64, told: impl FnOnce() -> String) {
        self.differences += 1;
        let at = self.smallest.partition_point(|(other, _)| *other <= size);
        if at < KEPT {
            self.smallest.insert(at, (size, told()));
            self.smallest.truncate(KEPT);
        }
    }

    pub fn differences(&self) -> u64 {
        self.differences
    }

    pub fn print_smallest(&self) {
        for (_, told) in &self.smallest {
            println!("    {told}");
        }
    }
}

impl Display for Tally {
    fn fmt(&self, f: &mut Formatter) -> fmt::Result {
        let cases: u64 = self.answers.iter().sum();
        let refused = cases - self.answers[0];
        write!(f, "cases {cases:>9}, refused {refused:>8}")?;
        let given = self.answers.iter().enumerate().skip(1);
        let given: Vec<String> = given
            .filter(|(_, &count)| count > 0)
            .map(|(number, count)| format!("{number}: {count}"))
            .collect();
        if !given.is_empty() {
            write!(f, " ({})", given.join(", "))?;
        }
        if self.paper_alone > 0 {
            write!(f, ", by the paper alone {}", self.paper_alone)?;
        }
        if !self.note.is_empty() {
            write!(f, ", {}", self.note)?;
        }
        write!(f, ", differences {}", self.differences)
    }
}

#[cfg(test)]
mod tests {
    use super::*;

    #[test]
    fn the_smallest_are_kept_in_order() {
        let mut tally = Tally::default();
        for size in [5, 3, 9, 4, 3] {
            tally.differ(size, || size.to_string());
        }
        let kept: Vec<u64> = tally.smallest.iter().map(|(size, _)| *size).collect();
        assert_eq!(kept, [3, 3, 4]);
        assert_eq!(tally.differences(), 5);
    }

    #[test]
    fn answers_are_told() {
        let mut tally = Tally::default();
        tally.count_accepted(10);
        tally.count(4);
        tally.count(4);
        tally.count(6);
        let told = "cases        13, refused        3 (4: 2, 6: 1), differences 0";
        assert_eq!(tally.to_string(), told);
    }
}
