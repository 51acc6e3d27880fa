//! Capture files: document 01's worked example, each rule broken once, and the order of refusals.

use oracle::paper::capture::parse;
use oracle::replay::play;
use oracle::replay::replay;
use oracle::replay::text;
use shared::captures::file;
use shared::captures::worked;
use shared::captures::Part;
use shared::captures::ENTRY_LEN;
use shared::captures::WORKED_OUTPUT;

const JOB_LEN: usize = 13;

/// The worked example with something changed.
fn changed(change: impl FnOnce(&mut Vec<Part>)) -> Vec<u8> {
    let mut parts = worked().to_vec();
    change(&mut parts);
    file(&parts)
}

fn output(file: &[u8]) -> String {
    text(&replay(file))
}

fn refusal(file: &[u8]) -> u8 {
    let output = output(file);
    let number = output
        .strip_prefix("refused ")
        .expect("the file is refused");
    number.trim_end().parse().unwrap()
}

fn assert_malformed(file: &[u8]) {
    assert!(parse(file).is_none(), "{file:?}");
    assert_eq!(refusal(file), 13);
}

#[test]
fn the_worked_example_is_its_output() {
    let file = file(&worked());
    assert_eq!(file.len(), 1 + 3 * ENTRY_LEN + 67 + JOB_LEN + 5 * 128);
    assert_eq!(output(&file), WORKED_OUTPUT);
}

#[test]
fn parts_are_read() {
    let file = changed(|parts| parts.push((4, vec![1; 24])));
    let capture = parse(&file).unwrap();
    assert_eq!(
        [capture.description.width, capture.description.height],
        [64; 2]
    );
    assert_eq!(capture.description.hints, [1; 7]);
    assert_eq!(capture.jobs.len(), 1);
    assert_eq!(capture.jobs[0].window.numbers(), [0, 0, 8, 0, 8]);
    assert_eq!(capture.records, Some([1; 24].as_slice()));
    assert_eq!(capture.present(), [1, 0, 0, 0, 0, 0, 0]);
}

#[test]
fn the_number_of_entries_is_within_32() {
    for file in [&[][..], &[0], &[1], &[3]] {
        assert_malformed(file);
    }
    let some = |count: usize| changed(|parts| parts.resize(count, (17, vec![])));
    assert_malformed(&some(33));
    let mut none = file(&worked());
    none[0] = 0;
    assert_malformed(&none);
    // The entries are cut.
    assert_malformed(&file(&worked())[..3 * ENTRY_LEN]);
}

#[test]
fn bodies_are_in_order_without_gaps_to_the_end() {
    let whole = file(&worked());
    for len in 0..whole.len() {
        assert_malformed(&whole[..len]);
    }
    assert_malformed(&[&whole[..], &[0]].concat());
    // Each offset and each length one more, one less, and past the end.
    for entry in 0..3 {
        for number in [2, 6] {
            let at = ENTRY_LEN * entry + number;
            for byte in [whole[at].wrapping_add(1), whole[at].wrapping_sub(1)] {
                let mut other = whole.clone();
                other[at] = byte;
                assert_malformed(&other);
            }
            let mut other = whole.clone();
            other[at + 3] = 255;
            assert_malformed(&other);
        }
    }
    // A byte between two bodies.
    let mut gap = whole.clone();
    gap.insert(28 + 67, 0);
    gap[2 + ENTRY_LEN] += 1;
    gap[2 + 2 * ENTRY_LEN] += 1;
    assert_malformed(&gap);
}

#[test]
fn kinds_are_known_and_come_once() {
    assert_malformed(&changed(|parts| parts.swap(0, 1)));
    for kind in [1, 2, 16] {
        let part = worked().into_iter().find(|part| part.0 == kind);
        assert_malformed(&changed(|parts| parts.extend(part)));
    }
    assert_malformed(&changed(|parts| _ = parts.remove(0)));
    assert_malformed(&changed(|parts| _ = parts.remove(1)));
    let known = [4, 17, 18, 19, 20, 21, 22];
    for kind in 0..=255 {
        let file = changed(|parts| parts.push((kind, vec![])));
        assert_eq!(parse(&file).is_some(), known.contains(&kind), "kind {kind}");
    }
    // All of them, the jobs last.
    let all = changed(|parts| {
        let jobs = parts.remove(1);
        parts.extend(known.map(|kind| (kind, vec![])));
        parts.push(jobs);
    });
    assert_eq!(parse(&all).unwrap().present(), [1; 7]);
}

#[test]
fn bodies_hold_whole_parts() {
    for (kind, part) in [(1, 67), (2, JOB_LEN), (4, 12), (17, 5), (22, 5)] {
        for len in 0..=140 {
            let file = changed(|parts| {
                parts.retain(|part| part.0 != kind);
                let at = usize::from(kind != 1);
                parts.insert(at, (kind, vec![1; len]));
            });
            let whole = match kind {
                1 => len == part,
                _ => len % part == 0,
            };
            assert_eq!(parse(&file).is_some(), whole, "kind {kind}, {len} bytes");
        }
    }
}

#[test]
fn a_file_has_at_most_65_536_bytes() {
    let of = |jobs: usize, cells: usize| {
        changed(|parts| {
            // Each job has its own row.
            let job = |row: usize| [0, 0, 0, 0, 8, 0, row as u8, 0, row as u8 + 1, 0, 0, 0, 1];
            parts[1].1 = (0..jobs).flat_map(job).collect();
            parts[2].1.resize(5 * cells, 0);
        })
    };
    let [most, more] = [of(2, 13_083), of(4, 13_078)];
    assert_eq!([most.len(), more.len()], [65_536, 65_537]);
    assert_eq!(
        output(&most),
        "job 0 answer 0 steps 2\njob 1 answer 0 steps 2\n"
    );
    assert!(parse(&more).is_some());
    assert_eq!(refusal(&more), 13);
}

/// Something that a file is refused for.
type Fault = fn(&mut Vec<Part>);

const NO_JOB: Fault = |parts| parts[1].1.clear();
const WIDE: Fault = |parts| parts[0].1[1] = 2;
const BAD_HINT: Fault = |parts| parts[0].1[6] = 8;
const BACKWARDS: Fault = |parts| parts[1].1[2] = 9;
const SHORT: Fault = |parts| parts[2].1.truncate(5 * 127);
const BAD_CELL: Fault = |parts| parts[2].1[4] = 8;

fn refusal_of(faults: &[Fault]) -> u8 {
    refusal(&changed(|parts| {
        faults.iter().for_each(|fault| fault(parts))
    }))
}

#[test]
fn refusals_come_in_their_order() {
    let twice: Fault = |parts| parts.push((16, vec![]));
    let ranked = [
        (13, twice),
        (12, NO_JOB),
        (1, WIDE),
        (2, BAD_HINT),
        (3, BACKWARDS),
        (4, SHORT),
        (7, BAD_CELL),
    ];
    for (at, (number, first)) in ranked.into_iter().enumerate() {
        assert_eq!(refusal_of(&[first]), number);
        for (_, second) in ranked.into_iter().skip(at + 1) {
            assert_eq!(refusal_of(&[second, first]), number);
        }
    }
}

#[test]
fn the_limits_of_replay_are_refused_with_1() {
    let sides: [(Fault, bool); 6] = [
        (|parts| parts[0].1[..2].copy_from_slice(&[0, 1]), true),
        (|parts| parts[0].1[..2].copy_from_slice(&[1, 1]), false),
        (|parts| parts[0].1[2..4].copy_from_slice(&[0, 1]), true),
        (|parts| parts[0].1[2..4].copy_from_slice(&[1, 1]), false),
        (|parts| parts[0].1[63] = 4, true),
        (|parts| parts[0].1[63] = 5, false),
    ];
    for (change, fine) in sides {
        let larger: Fault = |parts| parts[2].1.resize(5 * 32 * 32, 0);
        let file = changed(|parts| [larger, change].iter().for_each(|it| it(parts)));
        if fine {
            assert!(output(&file).starts_with("job 0 answer 0 steps 16\n"));
        } else {
            assert_eq!(refusal(&file), 1);
        }
    }
}

#[test]
fn jobs_are_judged_before_the_frame() {
    let jobs: [Fault; 5] = [
        NO_JOB,
        |parts| parts[1].1 = parts[1].1.repeat(9),
        |parts| parts[1].1[0] = 2,
        |parts| parts[1].1[12] = 0,
        |parts| parts[1].1[12] = 3,
    ];
    for job in jobs {
        assert_eq!(refusal_of(&[job]), 12);
        assert_eq!(refusal_of(&[job, WIDE]), 12);
    }
    assert_eq!(refusal_of(&[|parts| parts[1].1 = parts[1].1.repeat(2)]), 11);
}

/// A reference whose kind is there counts as lent, so that it may be used and be too short.
#[test]
fn an_empty_field_is_present() {
    assert_eq!(refusal_of(&[|parts| parts[2].1.clear()]), 4);
    let absent = changed(|parts| _ = parts.remove(2));
    assert_eq!(output(&absent), "job 0 answer 0 steps 8\n");
}

#[test]
fn buffers_are_lent_at_any_length() {
    let whole = file(&worked());
    let [projected, saved] = [5 * 16 * 16, 5 * 16 * 8];
    for more in [0, 3, 5, 17] {
        let [mut projection, mut field] = [vec![9; projected + more], vec![9; more]];
        assert_eq!(play(&whole, &mut projection, &mut field), Ok(vec![16]));
        let (cells, rest) = projection.as_chunks::<5>();
        for (at, cell) in cells.iter().enumerate() {
            let wanted = match at {
                34 => [0, 0, 64, 0, 1],
                _ => [0, 128, 0, 128, 0],
            };
            assert_eq!(*cell, wanted, "{at}");
        }
        assert!(rest.iter().all(|&byte| byte == 9));
        // A load has no use for the saved field, and it is made ready all the same.
        let (cells, rest) = field.as_chunks::<5>();
        assert!(cells.iter().all(|cell| *cell == [0; 5]));
        assert!(rest.iter().all(|&byte| byte == 9));
    }
    let [mut projection, mut field] = [vec![9; projected - 1], vec![9; saved]];
    assert_eq!(play(&whole, &mut projection, &mut field), Err(4));
    assert!([projection, field].concat().iter().all(|&byte| byte == 9));
}

/// A save of rows 0..8 on records that all hold one of 8 x 8 samples, to reference 1.
fn saving(change: impl FnOnce(&mut Vec<Part>)) -> Vec<u8> {
    changed(|parts| {
        parts[1].1[0] = 1;
        let record = [3, 0, 254, 255, 0, 0, 0, 0, 1, 255, 17, 0];
        parts[2] = (4, record.repeat(70 * 16 + 1));
        change(parts);
    })
}

#[test]
fn saved_cells_are_told_by_row_and_column() {
    let mut lines = "job 0 answer 0 steps 8\n".to_string();
    for row in 0..8 {
        for column in 0..8 {
            lines += &format!("s {row} {column} 3 -2 1\n");
        }
    }
    assert_eq!(output(&saving(|_| {})), lines);
    // A record that isn't read may be anything, also what the Rust can't hold.
    assert_eq!(output(&saving(|parts| parts[2].1[..12].fill(255))), lines);
    let read = 12 * (32 + 1) + 10;
    assert_eq!(refusal(&saving(|parts| parts[2].1[read] = 22)), 8);
}

#[test]
fn rows_past_the_frame_are_no_steps() {
    let past = saving(|parts| parts[1].1[6..10].copy_from_slice(&[40, 0, 48, 0]));
    assert_eq!(output(&past), "job 0 answer 0 steps 0\n");
    let load = changed(|parts| parts[1].1[6..10].copy_from_slice(&[40, 0, 48, 0]));
    assert_eq!(output(&load), "job 0 answer 0 steps 0\n");
}
