//! Searches of real streams, with what the traced decoder read and found.

use super::question::listed;
use super::question::FindQuestion;
use cases::real;
use cases::real::Frame;
use shared::finds;
use shared::finds::Find;
use shared::folder;
use std::path::Path;

/// The sample that stands in the repository.
const SAMPLE: &str = concat!(env!("CARGO_MANIFEST_DIR"), "/../../real/finds");

/// One of so many is in the list.
const EACH: usize = 5;

pub fn questions() -> Result<Vec<FindQuestion>, String> {
    sample(EACH)
}

/// One of so many searches, in each file.
pub fn sample(each: usize) -> Result<Vec<FindQuestion>, String> {
    let mut questions = Vec::new();
    for path in finds::files(Path::new(SAMPLE))? {
        let finds = finds::read(&folder::read(&path)?)?;
        let frames = finds.frames.iter().map(Frame::new);
        let frames: Vec<Frame> = frames.collect::<Result<_, _>>()?;
        for find in finds.cases.iter().step_by(each) {
            questions.push(question(&frames[find.frame], find)?);
        }
    }
    Ok(questions)
}

fn question(frame: &Frame, find: &Find) -> Result<FindQuestion, String> {
    Ok(FindQuestion {
        record: frame.record,
        table: (&frame.table(find)?).into(),
        ask: frame.ask(&find.query),
        lens: listed(&frame.record),
        records: find.records.clone(),
        cells: find.cells.clone(),
        traced: Some(real::answer(&find.found)),
    })
}
