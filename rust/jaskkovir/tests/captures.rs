//! Document 01's worked capture, and refusals of others.

use jaskkovir::calls::play;
use jaskkovir::calls::STEPS_LEN;
use jaskkovir::refusal;
use shared::captures::file;
use shared::captures::worked;

const STRIDE: usize = 16;

const PROJECTED: usize = 5 * 16 * STRIDE;

#[test]
fn the_worked_capture_is_played() {
    let (mut projection, mut saved) = (vec![9; PROJECTED + 7], vec![9; 6]);
    let mut steps = [9; STEPS_LEN + 1];
    let answer = play(&file(&worked()), &mut projection, &mut saved, &mut steps);
    assert_eq!(answer, refusal::ACCEPTED);
    let (cells, rest) = projection.as_chunks();
    for (at, cell) in cells.iter().enumerate() {
        let wanted = match [at / STRIDE, at % STRIDE] {
            [2, 2] => [0, 0, 64, 0, 1],
            _ => [0, 128, 0, 128, 0],
        };
        assert_eq!(*cell, wanted, "{at}");
    }
    assert_eq!(rest, [9; 2]);
    assert_eq!(saved, [0, 0, 0, 0, 0, 9]);
    assert_eq!(steps[..4], [16, 0, 0, 0]);
    assert_eq!(steps[4..STEPS_LEN], [0; 28]);
    assert_eq!(steps[STEPS_LEN..], [9]);
}

#[test]
fn a_refused_capture_writes_nothing() {
    let refused = |file: &[u8], projected: usize, steps_len: usize| {
        let (mut projection, mut saved) = (vec![9; projected], vec![9; 640]);
        let mut steps = vec![9; steps_len];
        let answer = play(file, &mut projection, &mut saved, &mut steps);
        let parts = [projection, saved, steps].concat();
        assert!(parts.iter().all(|&byte| byte == 9));
        answer
    };
    let whole = file(&worked());
    assert_eq!(refused(&[], PROJECTED, STEPS_LEN), refusal::CAPTURE);
    assert_eq!(refused(&whole[1..], PROJECTED, STEPS_LEN), refusal::CAPTURE);
    assert_eq!(refused(&whole, PROJECTED - 1, STEPS_LEN), refusal::BUFFER);
    // Before anything else.
    assert_eq!(refused(&[], PROJECTED, STEPS_LEN - 1), refusal::BUFFER);
    let mut jobless = worked();
    jobless[1].1.clear();
    assert_eq!(refused(&file(&jobless), PROJECTED, STEPS_LEN), refusal::JOB);
}
