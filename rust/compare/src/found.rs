//! What a search of the port leaves, beside what it should leave.

use jaskkovir::calls;
use jaskkovir::calls::Searched;
use jaskkovir::calls::FOUND_LEN;
use jaskkovir::calls::STACK_LEN;
use oracle::search::Answer;
use shared::split_mix::SplitMix64;

/// The most bytes lent behind the stack, and behind what is found.
const MORE: usize = 5;

/// The two parts that a search writes.
#[derive(Clone, PartialEq, Eq, Debug)]
pub struct Left {
    stack: Vec<u8>,
    found: Vec<u8>,
}

impl Left {
    /// Any bytes, and some behind.
    pub fn lent(random: &mut SplitMix64) -> Self {
        let stack: [u8; STACK_LEN + MORE] = random.bytes();
        let found: [u8; FOUND_LEN + MORE] = random.bytes();
        let [more, behind] = [(); 2].map(|_| random.below(MORE + 1));
        Self {
            stack: stack[..STACK_LEN + more].to_vec(),
            found: found[..FOUND_LEN + behind].to_vec(),
        }
    }

    /// With what document 01 fixes of an accepted search.
    pub fn with(mut self, compound: bool, answer: &Answer) -> Self {
        let stack = self.stack.first_chunk_mut().expect("a whole stack is lent");
        answer.lay(compound, stack);
        self.found[..FOUND_LEN].copy_from_slice(&[answer.count, answer.context]);
        self
    }

    /// The port's answer, and what it leaves.
    pub fn search(mut self, searched: &Searched, ask: &[u8]) -> (u8, Self) {
        let answer = calls::find(searched, ask, &mut self.stack, &mut self.found);
        (answer, self)
    }
}
