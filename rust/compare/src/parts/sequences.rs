//! Real streams: every event of their decodes, with the buffers as the events leave them, compared
//! with the Rust and with what the traced decoder had.

use crate::options::Extent;
use crate::options::Options;
use crate::stream::Stream;
use crate::tally::Tally;
use shared::folder;
use shared::sequences;
use std::path::Path;

/// The sample that stands in the repository.
const SAMPLE: &str = concat!(env!("CARGO_MANIFEST_DIR"), "/../../real/sequences");

pub fn compare(options: &Options) -> Result<Tally, String> {
    let folder = match &options.extent {
        Extent::Sequences(folder) => folder,
        _ => Path::new(SAMPLE),
    };
    let files = sequences::files(folder)?;
    if files.is_empty() {
        return Err(format!("{}: no sequences", folder.display()));
    }
    let mut tally = Tally::default();
    let mut counts = [0; 256];
    for path in &files {
        let told = |why: String| format!("{}: {why}", path.display());
        let bytes = folder::read(path)?;
        let mut stream = Stream::default();
        for (at, event) in sequences::events(&bytes).map_err(told)?.iter().enumerate() {
            let differing = stream.take(event, &mut tally).map_err(told)?;
            for why in differing {
                tally.differ(at as u64, || {
                    format!("{} event {at}: {why}", path.display())
                });
            }
            counts[usize::from(event.letter)] += 1;
        }
    }
    tally.note = note(files.len(), counts);
    Ok(tally)
}

/// How many events of each kind there were.
fn note(streams: usize, counts: [u64; 256]) -> String {
    let [frames, rows, splats, loads, saves, searches] =
        b"FRSLVQ".map(|it| counts[usize::from(it)]);
    format!(
        "{streams} streams: {frames} frames, {rows} rows, {splats} splats, {loads} loads, \
         {saves} saves, {searches} searches"
    )
}
