//! Real searches, each with all that the traced decoder read; everything else is ill-formed.

use crate::codec;
use crate::found::Left;
use crate::names;
use crate::options::Extent;
use crate::options::Options;
use crate::tally::Tally;
use cases::found;
use cases::real;
use cases::real::Frame;
use jaskkovir::calls::Searched;
use shared::finds;
use shared::finds::Find;
use shared::folder;
use shared::split_mix::SplitMix64;
use std::path::Path;

/// The sample that stands in the repository.
const SAMPLE: &str = concat!(env!("CARGO_MANIFEST_DIR"), "/../../real/finds");

pub fn compare(options: &Options) -> Result<Tally, String> {
    let folder = match &options.extent {
        Extent::Finds(folder) => folder,
        _ => Path::new(SAMPLE),
    };
    // The paper and the Rust come to what was traced.
    found::check(folder)?;
    let mut random = options.random(names::FINDS);
    let mut tally = Tally::default();
    let files = finds::files(folder)?;
    for path in &files {
        let told = |why: String| format!("{}: {why}", path.display());
        let finds = finds::read(&folder::read(path)?).map_err(told)?;
        let frames = finds.frames.iter().map(Frame::new);
        let frames: Vec<Frame> = frames.collect::<Result<_, _>>().map_err(told)?;
        for (at, find) in finds.cases.iter().enumerate() {
            tally.count(0);
            if let Err(why) = ask(&mut random, &frames[find.frame], find) {
                let told = || told(format!("search {at}: {why}"));
                tally.differ(find.records.len() as u64, told);
            }
        }
    }
    tally.note = format!("{} files", files.len());
    Ok(tally)
}

fn ask(random: &mut SplitMix64, frame: &Frame, find: &Find) -> Result<(), String> {
    let [records, projection] = frame.buffers(find, real::BAD_RECORD, real::BAD_CELL);
    let starts = [find.bounds[0], find.bounds[2]].map(u32::from);
    let searched = Searched {
        frame: &codec::frame_bytes(&frame.record),
        tile: &codec::tile_bytes(&frame.table(find)?, starts),
        records: &records,
        projection: &projection,
    };
    let ask = frame.ask(&find.query);
    let lent = Left::lent(random);
    let wanted = lent.clone();
    let wanted = wanted.with(ask.is_compound(), &real::answer(&find.found));
    let (answer, left) = lent.search(&searched, &codec::ask_bytes(&ask));
    if answer == 0 && left == wanted {
        return Ok(());
    }
    Err(format!("ours {answer} {left:?}, traced {wanted:?}"))
}
