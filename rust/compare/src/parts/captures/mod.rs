//! Capture files, played whole. Real ones leave what the traced decoder left; damaged ones what the
//! Rust and the paper make of them.

mod damage;
mod player;

use crate::names;
use crate::options::Extent;
use crate::options::Options;
use crate::tally::Tally;
use oracle::replay::replay;
use oracle::replay::text;
use oracle::replay::Played;
use oracle::replay::Replayed;
use player::Lens;
use player::Player;
use shared::captures;
use shared::captures::Captured;
use std::path::Path;

/// The sample that stands in the repository.
const SAMPLE: &str = concat!(env!("CARGO_MANIFEST_DIR"), "/../../real/captures");

/// A load, a save, and both: each of their bytes is damaged.
const DAMAGED: [&str; 3] = [
    "o18_nar128_t2x3_tt_04_load",
    "o02_mand256_sb128_st_05_save",
    "o11_mand256_superres_st_03_both",
];

/// What each byte is set to.
const BYTES: [u8; 5] = [0, 1, 127, 128, 255];

pub fn compare(options: &Options) -> Result<Tally, String> {
    let mut random = options.random(names::CAPTURES);
    let mut tally = Tally::default();
    let player = Player::new(&mut random);
    let folder = match &options.extent {
        Extent::Captures(folder) => folder,
        _ => Path::new(SAMPLE),
    };
    let captures = captures::read(folder)?;
    for captured in &captures {
        whole(&player, captured, &mut tally);
    }
    tally.note = format!("{} real captures", captures.len());
    if let Extent::Captures(_) = options.extent {
        return Ok(tally);
    }
    for name in DAMAGED {
        let damaged = captures.iter().find(|captured| captured.name == name);
        let damaged = damaged.ok_or_else(|| format!("{name} isn't in the sample"))?;
        every_byte(&player, damaged, &mut tally);
        every_length(&player, damaged, &mut tally);
    }
    for _ in 0..options.cases(20_000, 1_000_000) {
        let captured = &captures[random.below(captures.len())];
        let (file, lens) = damage::any(&mut random, &captured.file);
        let told = || format!("{} damaged: {:?}", captured.name, damage::head(&file));
        player.play(&file, lens, &mut tally, told);
    }
    Ok(tally)
}

/// Plays a file as it is, and tells what is left as the program would.
fn whole(player: &Player, captured: &Captured, tally: &mut Tally) {
    let told = || captured.name.clone();
    let left = player.play(&captured.file, Lens::LISTED, tally, told);
    let ours = match replay(&captured.file) {
        Replayed::Played(played) => Replayed::Played(Played {
            steps: left.steps(played.steps.len()),
            stride: played.stride,
            projection: left.projection[..played.projection.len()].to_vec(),
            saved: left.saved[..played.saved.len()].to_vec(),
        }),
        refused => refused,
    };
    if text(&ours).as_bytes() != captured.output {
        tally.differ(0, || format!("{}: not as traced", captured.name));
    }
}

fn every_byte(player: &Player, captured: &Captured, tally: &mut Tally) {
    let mut file = captured.file.clone();
    for at in 0..file.len() {
        let before = file[at];
        for byte in BYTES.into_iter().filter(|&byte| byte != before) {
            file[at] = byte;
            let told = || format!("{}, byte {at} is {byte}", captured.name);
            player.play(&file, Lens::LISTED, tally, told);
        }
        file[at] = before;
    }
}

fn every_length(player: &Player, captured: &Captured, tally: &mut Tally) {
    for len in 0..captured.file.len() {
        let told = || format!("{}, cut to {len} bytes", captured.name);
        player.play(&captured.file[..len], Lens::LISTED, tally, told);
    }
}
