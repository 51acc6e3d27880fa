//! A search by the paper and by the Rust.

use oracle::paper;
use oracle::paper::Lent;
use oracle::paper::Searched;
use oracle::search;
use oracle::search::Answer;
use oracle::search::Ask;
use oracle::search::Prepared;
use oracle::search::SLOTS;
use oracle::search::SLOT_LEN;
use oracle::Outcome;

/// What the paper says, and how the Rust stands to it.
pub struct Judged {
    pub searched: Result<Searched, u8>,
    pub verdict: Verdict,
}

#[derive(Clone, Copy, Debug, PartialEq, Eq)]
pub enum Verdict {
    Same,
    /// The Rust can't be asked: it has no refusals for a bad ask and ill-formed parts, and doesn't
    /// come to each global vector.
    PaperAlone,
    Different,
}

/// The Rust must hold what is lent. Where the paper refuses a read with 4, 6 or 9, it must panic.
pub fn judge(lent: &Lent, rust: &Prepared, ask: &Ask) -> Judged {
    let searched = paper::search(lent, ask);
    let same = match &searched {
        Ok(_) | Err(4 | 6 | 9) if search::can_ask(ask) => {
            let outcome = search::search(rust, ask);
            Some(is_same(ask.is_compound(), &searched, &outcome))
        }
        _ => None,
    };
    let verdict = match same {
        Some(true) => Verdict::Same,
        Some(false) => Verdict::Different,
        None => Verdict::PaperAlone,
    };
    Judged { searched, verdict }
}

fn is_same(compound: bool, paper: &Result<Searched, u8>, rust: &Outcome<Answer>) -> bool {
    match (paper, rust) {
        (Ok(searched), Outcome::Gave(answer)) => fixes_the_same(compound, &searched.answer, answer),
        (Err(_), Outcome::Panicked) => true,
        _ => false,
    }
}

/// Whether both leave the same of any lent stack.
pub fn fixes_the_same(compound: bool, one: &Answer, other: &Answer) -> bool {
    let left = |answer: &Answer, byte| {
        let mut stack = [byte; SLOTS * SLOT_LEN];
        answer.lay(compound, &mut stack);
        (answer.count, answer.context, stack)
    };
    [0, 255]
        .iter()
        .all(|&byte| left(one, byte) == left(other, byte))
}
