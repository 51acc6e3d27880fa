//! Parts of a fixed size that are too short: 4 before anything else, and nothing written.

use crate::codec;
use crate::frames;
use crate::names;
use crate::options::Options;
use crate::tally::Tally;
use cases::records;
use jaskkovir::calls;
use jaskkovir::calls::Block;
use jaskkovir::calls::Description;
use jaskkovir::calls::Row;
use jaskkovir::calls::Searched;
use jaskkovir::calls::FOUND_LEN;
use jaskkovir::calls::STACK_LEN;
use jaskkovir::calls::STEPS_LEN;
use jaskkovir::jobs;
use jaskkovir::jobs::Sources;
use jaskkovir::refusal::BUFFER;
use jaskkovir::tmvs;
use jaskkovir::tmvs::Saving;
use jaskkovir::tmvs::Window;
use jaskkovir::Ask;
use jaskkovir::Frame;
use jaskkovir::Job;
use jaskkovir::Listed;
use jaskkovir::Tile;
use shared::captures;
use shared::split_mix::SplitMix64;

/// Each length of each part, with the others whole; the numbers are anything.
pub fn compare(options: &Options) -> Result<Tally, String> {
    let mut random = options.random(names::SHORTS);
    let mut tally = Tally::default();
    for _ in 0..options.cases(200, 4_000) {
        init_frame(&mut random, &mut tally);
        listed_sizes(&mut random, &mut tally);
        tile_sbrow_init(&mut random, &mut tally);
        splat_mv(&mut random, &mut tally);
        save_tmvs(&mut random, &mut tally);
        load_tmvs(&mut random, &mut tally);
        jobs(&mut random, &mut tally);
        find(&mut random, &mut tally);
        play(&mut random, &mut tally);
    }
    Ok(tally)
}

/// One part short at a time: the lengths of all parts, for each length that is too short.
fn short_lens<const N: usize>(whole: [usize; N]) -> impl Iterator<Item = [usize; N]> {
    (0..N).flat_map(move |part| {
        (0..whole[part]).map(move |len| {
            let mut lens = whole;
            lens[part] = len;
            lens
        })
    })
}

fn told(tally: &mut Tally, name: &str, lens: &[usize], answer: u8, as_lent: bool) {
    tally.count(BUFFER);
    if answer != BUFFER || !as_lent {
        let size = lens.iter().sum::<usize>() as u64;
        tally.differ(size, || {
            format!("{name} with lengths {lens:?}: ours {answer}, as lent: {as_lent}")
        });
    }
}

/// Any numbers, more often small ones.
fn numbers<const N: usize>(random: &mut SplitMix64) -> [usize; N] {
    std::array::from_fn(|_| match random.below(3) {
        0 => usize::from_le_bytes(random.bytes()),
        _ => random.below(40),
    })
}

fn frame(random: &mut SplitMix64) -> [u8; Frame::LEN] {
    let mut bytes = codec::frame_bytes(&frames::record(random, frames::SMALL));
    if random.below(2) == 0 {
        frames::damage(random, &mut bytes);
    }
    bytes
}

fn init_frame(random: &mut SplitMix64, tally: &mut Tally) {
    let question = frames::question(random, frames::WHOLE);
    let [width, height, tile_rows] = match random.below(2) {
        0 => numbers(random),
        _ => [64, 64, 1],
    };
    let lent: [u8; Frame::LEN] = random.bytes();
    for lens in short_lens([7, 49, 7, Frame::LEN]) {
        let description = Description {
            width,
            height,
            tile_rows,
            hints: &question.hints[..lens[0]],
            hints_by_ref: &question.hints_by_ref[..lens[1]],
            ..frames::asked(&question)
        };
        let mut frame = lent;
        let part = &mut frame[..lens[3]];
        let answer = calls::init_frame(&description, &question.present[..lens[2]], part);
        told(tally, "init_frame", &lens, answer, frame == lent);
    }
}

fn listed_sizes(random: &mut SplitMix64, tally: &mut Tally) {
    let (frame, lent) = (frame(random), random.bytes::<{ Listed::LEN }>());
    for lens in short_lens([Frame::LEN, Listed::LEN]) {
        let mut sizes = lent;
        let answer = calls::listed_sizes(&frame[..lens[0]], &mut sizes[..lens[1]]);
        told(tally, "listed_sizes", &lens, answer, sizes == lent);
    }
    for lens in short_lens([Frame::LEN]) {
        let answer = calls::check(&frame[..lens[0]]);
        told(tally, "check", &lens, answer, true);
    }
}

fn tile_sbrow_init(random: &mut SplitMix64, tally: &mut Tally) {
    let (frame, lent) = (frame(random), random.bytes::<{ Tile::LEN }>());
    let [col_start, col_end, row_start, row_end, superblock_row, tile_row, pass] = numbers(random);
    let row = Row {
        col_start,
        col_end,
        row_start,
        row_end,
        superblock_row,
        tile_row,
        pass,
    };
    for lens in short_lens([Frame::LEN, Tile::LEN]) {
        let mut tile = lent;
        let answer = calls::tile_sbrow_init(&frame[..lens[0]], &row, &mut tile[..lens[1]]);
        told(tally, "tile_sbrow_init", &lens, answer, tile == lent);
    }
}

fn splat_mv(random: &mut SplitMix64, tally: &mut Tally) {
    let (frame, record) = (frame(random), records::any(random));
    let tile: [u8; Tile::LEN] = random.bytes();
    let [y, x, width, height] = numbers(random);
    let block = Block {
        y,
        x,
        width,
        height,
    };
    let lent: [u8; 1000] = random.bytes();
    for lens in short_lens([Frame::LEN, Tile::LEN, record.len()]) {
        let mut records = lent;
        let answer = calls::splat_mv(
            &frame[..lens[0]],
            &tile[..lens[1]],
            &record[..lens[2]],
            &block,
            &mut records,
        );
        told(tally, "splat_mv", &lens, answer, records == lent);
    }
}

fn save_tmvs(random: &mut SplitMix64, tally: &mut Tally) {
    let [superblock_row, pass] = numbers(random);
    let saving = Saving {
        window: window(random),
        superblock_row,
        pass,
    };
    let (frame, records) = (frame(random), random.bytes::<1000>());
    let lent: [u8; 200] = random.bytes();
    for lens in short_lens([Frame::LEN]) {
        let mut field = lent;
        let answer = tmvs::save_tmvs(&frame[..lens[0]], &saving, &records, &mut field);
        told(tally, "save_tmvs", &lens, answer, field == lent);
    }
}

fn load_tmvs(random: &mut SplitMix64, tally: &mut Tally) {
    let (frame, window) = (frame(random), window(random));
    let (present, field) = (random.bytes::<7>(), random.bytes::<200>());
    let lent: [u8; 200] = random.bytes();
    for lens in short_lens([Frame::LEN, present.len()]) {
        let mut projection = lent;
        let (frame, present) = (&frame[..lens[0]], &present[..lens[1]]);
        let fields = [field.as_slice(); 7];
        let answer = tmvs::load_tmvs(frame, &window, present, fields, &mut projection);
        told(tally, "load_tmvs", &lens, answer, projection == lent);
    }
}

fn jobs(random: &mut SplitMix64, tally: &mut Tally) {
    let (frame, present) = (frame(random), random.bytes::<7>());
    let (part, batch) = (random.bytes::<200>(), random.bytes::<{ 4 * Job::LEN }>());
    let batch = &batch[..random.below(batch.len() + 1)];
    let [k] = numbers(random);
    for lens in short_lens([Frame::LEN, present.len()]) {
        let sources = Sources {
            frame: &frame[..lens[0]],
            present: &present[..lens[1]],
            fields: [&part; 7],
            records: &part,
        };
        let answer = jobs::admit(&sources, batch, &part, &part);
        told(tally, "admit", &lens, answer, true);
        let (mut after, mut projection, mut saved) = (batch.to_vec(), part, part);
        let answer = jobs::step(&sources, &mut after, k, &mut projection, &mut saved);
        let as_lent = after == batch && [projection, saved] == [part; 2];
        told(tally, "step", &lens, answer, as_lent);
    }
}

fn find(random: &mut SplitMix64, tally: &mut Tally) {
    let (frame, ask) = (frame(random), random.bytes::<{ Ask::LEN }>());
    let (tile, part) = (random.bytes::<{ Tile::LEN }>(), random.bytes::<200>());
    let (lent, lent_found) = (random.bytes::<STACK_LEN>(), random.bytes::<FOUND_LEN>());
    for lens in short_lens([Frame::LEN, Tile::LEN, Ask::LEN, STACK_LEN, FOUND_LEN]) {
        let searched = Searched {
            frame: &frame[..lens[0]],
            tile: &tile[..lens[1]],
            records: &part,
            projection: &part,
        };
        let (mut stack, mut found) = (lent, lent_found);
        let answer = calls::find(
            &searched,
            &ask[..lens[2]],
            &mut stack[..lens[3]],
            &mut found[..lens[4]],
        );
        let as_lent = stack == lent && found == lent_found;
        told(tally, "find", &lens, answer, as_lent);
    }
}

fn play(random: &mut SplitMix64, tally: &mut Tally) {
    let mut file = captures::file(&captures::worked());
    if random.below(2) == 0 {
        file.truncate(random.below(file.len()));
    }
    let (lent, lent_steps) = (random.bytes::<2000>(), random.bytes::<STEPS_LEN>());
    for lens in short_lens([STEPS_LEN]) {
        let (mut projection, mut saved, mut steps) = (lent, lent, lent_steps);
        let part = &mut steps[..lens[0]];
        let answer = calls::play(&file, &mut projection, &mut saved, part);
        let as_lent = [projection, saved] == [lent; 2] && steps == lent_steps;
        told(tally, "play", &lens, answer, as_lent);
    }
}

fn window(random: &mut SplitMix64) -> Window {
    let [tile_row, left, right, top, bottom] = numbers(random);
    Window {
        tile_row,
        left,
        right,
        top,
        bottom,
    }
}
