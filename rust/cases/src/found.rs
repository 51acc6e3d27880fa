//! Files of real searches, asked again of the paper and of the Rust.

use crate::judge::fixes_the_same;
use crate::real;
use crate::real::Frame;
use oracle::paper;
use oracle::paper::Lent;
use oracle::paper::RowTable;
use oracle::search;
use oracle::search::Ask;
use oracle::search::Prepared;
use shared::finds;
use shared::finds::Find;
use shared::folder;
use std::path::Path;

/// How many searches of a folder there are. Fails at the first that isn't as traced.
pub fn check(folder: &Path) -> Result<usize, String> {
    let mut count = 0;
    for path in finds::files(folder)? {
        let told = |why: String| format!("{}: {why}", path.display());
        let finds = finds::read(&folder::read(&path)?).map_err(told)?;
        let frames = finds.frames.iter().map(Frame::new);
        let frames: Vec<Frame> = frames.collect::<Result<_, _>>().map_err(told)?;
        for (at, find) in finds.cases.iter().enumerate() {
            let told = |why| told(format!("search {at}: {why}"));
            check_one(&frames[find.frame], find).map_err(told)?;
        }
        count += finds.cases.len();
    }
    Ok(count)
}

fn check_one(frame: &Frame, find: &Find) -> Result<(), String> {
    let ask = frame.ask(&find.query);
    let table = frame.table(find)?;
    by_paper(frame, find, &ask, &(&table).into())?;
    if !search::can_ask(&ask) {
        return Err(format!("the Rust can't be asked {ask:?}"));
    }
    for record in unread(&ask) {
        let [records, cells] = frame.buffers(find, record, real::BAD_CELL);
        let rust = Prepared::on_record(&frame.record, &table, &records, &cells);
        let answer = search::search(&rust, &ask).gave();
        let answer = answer.ok_or("the Rust panicked")?;
        if !fixes_the_same(ask.is_compound(), &answer, &real::answer(&find.found)) {
            return Err(format!("the Rust's {answer:?}, traced {:?}", find.found));
        }
    }
    Ok(())
}

/// What stands for a record that the Rust shouldn't read, which can't hold an ill-formed size: a match
/// in each list, of the smallest size and of the largest, with a vector that nothing else has. For a
/// cell that it shouldn't read [`real::BAD_CELL`] will do: it panics at the distance.
pub fn unread(ask: &Ask) -> [[u8; 12]; 2] {
    let [first, second] = ask.references.map(|reference| reference as u8);
    [(21, 77), (0, 99)]
        .map(|(size, mark)| [mark, 1, mark, 2, mark, 3, mark, 4, first, second, size, 2])
}

/// Answer and reads, with everything else ill-formed.
fn by_paper(frame: &Frame, find: &Find, ask: &Ask, table: &RowTable) -> Result<(), String> {
    let [records, projection] = frame.buffers(find, real::BAD_RECORD, real::BAD_CELL);
    let lent = Lent {
        record: &frame.record,
        table,
        records: &records,
        projection: &projection,
    };
    let searched = paper::search(&lent, ask).map_err(|answer| format!("refused with {answer}"))?;
    if !fixes_the_same(
        ask.is_compound(),
        &searched.answer,
        &real::answer(&find.found),
    ) {
        return Err(format!(
            "the paper's {:?}, traced {:?}",
            searched.answer, find.found
        ));
    }
    let records = find.records.iter().map(|&(place, _)| place.into());
    let cells = find.cells.iter().map(|&(place, _)| place.into());
    if searched.records.iter().copied().eq(records) && searched.cells.iter().copied().eq(cells) {
        Ok(())
    } else {
        Err(format!("reads {:?} {:?}", searched.records, searched.cells))
    }
}
