//! Superblock-row setup.

mod accepted;
mod question;
mod refused;

pub use question::RowQuestion;

use crate::list::List;
use crate::list::SEED;
use crate::split_mix::SplitMix64;

pub fn put(list: &mut List) -> Result<(), String> {
    let mut random = SplitMix64::new(SEED);
    let questions = [accepted::questions(&mut random), refused::questions()];
    list.put_all("superblock rows", &questions.concat())
}

#[cfg(test)]
mod tests {
    use super::*;

    #[test]
    fn enough_rows_are_accepted() {
        let questions = accepted::questions(&mut SplitMix64::new(SEED));
        assert!(questions.len() >= 500);
        for question in &questions {
            assert_eq!(question.refusal(), Ok(0));
        }
    }
}
