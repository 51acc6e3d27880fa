//! Lists of steps, and what is to become of them.

/// What the program does with a batch once its admission has answered.
#[derive(Clone, Copy)]
pub enum Task {
    /// A step of each job.
    Steps,
    /// All jobs to their end, from the first and from the last.
    BothWays,
    /// Every list of nine steps of three jobs.
    Every,
    /// So many drawn lists.
    Drawn { seed: u32, lists: u32 },
}

impl Task {
    /// The seed, and how many lists are drawn: none where each is played, or none at all.
    pub fn numbers(self) -> [u32; 2] {
        match self {
            Self::Steps | Self::BothWays | Self::Every => [0, 0],
            Self::Drawn { seed, lists } => [seed, lists],
        }
    }

    /// The lists that it plays.
    pub fn lists(self) -> Vec<Vec<u8>> {
        match self {
            Self::Steps | Self::BothWays => Vec::new(),
            Self::Every => (0..LISTS).map(digits).collect(),
            Self::Drawn { seed, lists } => {
                let mut dice = Dice::new(seed);
                (0..lists).map(|_| dice.list()).collect()
            }
        }
    }
}

const STEPS: u32 = 9;

const LISTS: u32 = 3_u32.pow(STEPS);

/// The digits of a number to the base 3, the lowest first.
fn digits(number: u32) -> Vec<u8> {
    (0..STEPS)
        .map(|at| (number / 3_u32.pow(at) % 3) as u8)
        .collect()
}

/// The smallest usual generator, which the port's program has too.
struct Dice(u64);

impl Dice {
    const PRIME: u64 = (1 << 31) - 1;

    fn new(seed: u32) -> Self {
        Self(u64::from(seed) % Self::PRIME)
    }

    fn below(&mut self, bound: u64) -> u64 {
        self.0 = self.0 * 48_271 % Self::PRIME;
        self.0 / 65_536 % bound
    }

    /// At most 512 steps. Of the ten numbers that a step may be, two name none of eight jobs.
    fn list(&mut self) -> Vec<u8> {
        let len = self.below(513);
        (0..len).map(|_| self.below(10) as u8).collect()
    }
}

/// Whether a list names each job as often as it has steps.
pub fn finishes(list: &[u8], counts: &[u32]) -> bool {
    (0..).zip(counts).all(|(job, &count)| {
        let named = list.iter().filter(|&&step| step == job).count();
        named >= count as usize
    })
}

#[cfg(test)]
mod tests {
    use super::*;

    #[test]
    fn every_list_is_another() {
        let mut lists = Task::Every.lists();
        let finishing = lists.iter().filter(|list| finishes(list, &[3, 3, 3]));
        // 9! / (3! 3! 3!)
        assert_eq!(finishing.count(), 1680);
        lists.sort();
        lists.dedup();
        assert_eq!(lists.len(), 19_683);
    }

    #[test]
    fn drawn_lists_hold_every_number() {
        let lists = Task::Drawn { seed: 1, lists: 50 }.lists();
        let steps = lists.concat();
        assert!((0..10).all(|number| steps.contains(&number)));
        assert!(!steps.contains(&10));
        assert!(lists.iter().any(|list| list.len() > 400));
    }
}
