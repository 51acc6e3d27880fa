//! Reads the events out of traced sequences.

use crate::folder;
use std::path::Path;
use std::path::PathBuf;

const MAGIC: &[u8] = b"MVSEQ1\n\0";

/// The body of a frame set-up, whole.
pub const FRAME_LEN: usize = 125;

/// One event of a decode.
#[derive(Clone, Copy)]
pub struct Event<'a> {
    pub letter: u8,
    /// Whole, without the letter.
    pub body: &'a [u8],
}

/// The bodies of all frame set-ups of all sequences in a folder, by file name and then in order.
pub fn frames(folder: &Path) -> Result<Vec<[u8; FRAME_LEN]>, String> {
    let mut frames = Vec::new();
    for path in files(folder)? {
        let told = |why| folder::told(&path, why);
        frames.extend(frames_of(&folder::read(&path)?).map_err(told)?);
    }
    Ok(frames)
}

/// The sequences in a folder, by name.
pub fn files(folder: &Path) -> Result<Vec<PathBuf>, String> {
    folder::files(folder, "seq")
}

fn frames_of(bytes: &[u8]) -> Result<Vec<[u8; FRAME_LEN]>, String> {
    let setups = events(bytes)?.into_iter().filter(|it| it.letter == b'F');
    Ok(setups
        .map(|it| it.body.try_into().expect("the event has its length"))
        .collect())
}

/// The events of a sequence, in order.
pub fn events(bytes: &[u8]) -> Result<Vec<Event<'_>>, String> {
    let mut rest = bytes.strip_prefix(MAGIC).ok_or("no sequence")?;
    let mut events = Vec::new();
    while let Some((&letter, body)) = rest.split_first() {
        let (body, after) = event_len(letter, body)
            .and_then(|len| body.split_at_checked(len))
            .ok_or_else(|| format!("a bad event {} bytes before the end", rest.len()))?;
        events.push(Event { letter, body });
        rest = after;
    }
    Ok(events)
}

/// The length of an event's body, or nothing for an unknown letter or a body cut short.
fn event_len(letter: u8, body: &[u8]) -> Option<usize> {
    match letter {
        b'F' => Some(FRAME_LEN),
        b'R' => Some(12),
        b'S' => Some(18),
        // Tile row and bounds, the number of runs, then runs of 8 bytes.
        b'L' | b'V' => {
            let runs = u16::from_le_bytes([*body.get(9)?, *body.get(10)?]);
            Some(11 + 8 * usize::from(runs))
        }
        // The query with its two references first, count, context, the number of slots, then slots
        // with one vector or two.
        b'Q' => {
            let compound = *body.get(1)? as i8 > 0;
            let slots = usize::from(*body.get(20)?);
            Some(21 + slots * if compound { 10 } else { 6 })
        }
        _ => None,
    }
}

#[cfg(test)]
mod tests {
    use super::*;

    /// An event of zeros, but for some of its bytes.
    fn event(letter: u8, len: usize, set: &[(usize, u8)]) -> Vec<u8> {
        let mut body = vec![0; len];
        for &(at, byte) in set {
            body[at] = byte;
        }
        [vec![letter], body].concat()
    }

    fn sequence() -> Vec<u8> {
        [
            MAGIC.to_vec(),
            event(b'F', 125, &[(0, 1)]),
            event(b'R', 12, &[]),
            event(b'S', 18, &[]),
            // Three runs, then none.
            event(b'L', 11 + 24, &[(9, 3)]),
            event(b'V', 11, &[]),
            // Two slots with one vector, then three with two.
            event(b'Q', 21 + 12, &[(1, 255), (20, 2)]),
            event(b'Q', 21 + 30, &[(1, 5), (20, 3)]),
            event(b'F', 125, &[(0, 2)]),
        ]
        .concat()
    }

    #[test]
    fn frames_are_found_between_the_other_events() {
        let frames = frames_of(&sequence()).unwrap();
        assert_eq!(
            frames.iter().map(|frame| frame[0]).collect::<Vec<_>>(),
            [1, 2]
        );
    }

    #[test]
    fn events_have_their_letters_and_lengths() {
        let sequence = sequence();
        let events = events(&sequence).unwrap();
        let letters: Vec<u8> = events.iter().map(|event| event.letter).collect();
        assert_eq!(letters, b"FRSLVQQF");
        let lens: Vec<usize> = events.iter().map(|event| event.body.len()).collect();
        assert_eq!(lens, [125, 12, 18, 35, 11, 33, 51, 125]);
    }

    #[test]
    fn a_bad_sequence_is_told() {
        let whole = sequence();
        assert!(frames_of(&whole[..whole.len() - 1]).is_err());
        assert!(frames_of(&whole[1..]).is_err());
        assert!(frames_of(&[MAGIC, b"X"].concat()).is_err());
    }
}
