//! Text in lines that a document may have.

use crate::WIDEST;

/// The text in lines, the first behind `first`, the others behind as much space. What stands between two
/// backticks isn't torn, unless it is longer than a line.
pub fn wrap(first: &str, text: &str) -> String {
    let space = " ".repeat(first.chars().count());
    let mut lines = vec![first.to_string()];
    let mut is_empty = true;
    for word in words(text, WIDEST - space.chars().count()) {
        let line = lines.last_mut().expect("a line");
        if is_empty {
            line.push_str(&word);
        } else if line.chars().count() + 1 + word.chars().count() <= WIDEST {
            line.push(' ');
            line.push_str(&word);
        } else {
            lines.push(format!("{space}{word}"));
        }
        is_empty = false;
    }
    lines
        .iter()
        .map(|line| format!("{}\n", line.trim_end()))
        .collect()
}

/// Parts of a text between which it may be torn.
fn words(text: &str, widest: usize) -> Vec<String> {
    let mut words: Vec<String> = Vec::new();
    let mut is_code = false;
    for part in text.split(' ') {
        match words.last_mut() {
            Some(last) if is_code && last.chars().count() + 1 + part.chars().count() <= widest => {
                last.push(' ');
                last.push_str(part);
            }
            _ => words.push(part.into()),
        }
        is_code ^= part.matches('`').count() % 2 == 1;
    }
    words
}
