//! The loads and saves of a real stream.

use crate::stream::Now;
use crate::stream::Stream;
use crate::tally::Tally;
use crate::traced;
use crate::traced::Cursor;
use crate::traced::Runs;
use crate::windows;
use jaskkovir::tmvs;
use jaskkovir::tmvs::Saving;
use jaskkovir::tmvs::Window;
use oracle::load;
use oracle::save;

const CELL_LEN: usize = 5;

/// Both components are -32,768.
const INVALID: [u8; 4] = [0, 128, 0, 128];

impl Stream {
    pub fn load(&mut self, body: &mut Cursor, tally: &mut Tally) -> Result<Vec<String>, String> {
        let now = self.now.as_mut().ok_or("a load before the first frame")?;
        let (window, runs) = traced::window(body);
        let fields: [&[u8]; 7] = std::array::from_fn(|at| match now.lent[at] {
            Some(number) => self.fields[&number].as_slice(),
            None => &[],
        });
        let wanted = now.rust_load(&window, fields)?;
        let projection = &mut now.projection;
        let answer = tmvs::load_tmvs(&now.frame, &window, &now.present, fields, projection);
        tally.count(0);
        let as_rust = answer == 0 && now.projection == wanted;
        let as_traced = now.loaded_as_traced(&window, &runs);
        let what = format!("load {window:?}: {answer}");
        Ok(told(&what, as_rust, as_traced))
    }

    pub fn save(&mut self, body: &mut Cursor, tally: &mut Tally) -> Result<Vec<String>, String> {
        let now = self.now.as_mut().ok_or("a save before the first frame")?;
        let row = now.row.ok_or("a save before the first row")?;
        let (window, runs) = traced::window(body);
        let saving = Saving {
            window,
            superblock_row: row.superblock_row,
            pass: row.pass,
        };
        let field = self.fields.get_mut(&now.number);
        let field = field.expect("a frame has its field");
        let wanted = now.rust_save(&saving, field)?;
        let answer = tmvs::save_tmvs(&now.frame, &saving, &now.records, field);
        tally.count(0);
        let as_rust = answer == 0 && *field == wanted;
        let as_traced = now.saved_as_traced(&window, &runs, field);
        let what = format!("save {saving:?}: {answer}");
        Ok(told(&what, as_rust, as_traced))
    }
}

impl Now {
    /// The projection after the Rust's load.
    fn rust_load(&self, window: &Window, fields: [&[u8]; 7]) -> Result<Vec<u8>, String> {
        let present = |at: usize| (self.present[at] == 1).then_some(fields[at]);
        let rust = load::Prepared::on_record(
            &self.record,
            &windows::rust_window(window),
            std::array::from_fn(present),
            &self.projection,
        );
        rust.try_call().gave().ok_or("the Rust panicked in load")?;
        let mut after = self.projection.clone();
        rust.take_projection(&mut after);
        Ok(after)
    }

    /// The field after the Rust's save.
    fn rust_save(&self, saving: &Saving, field: &[u8]) -> Result<Vec<u8>, String> {
        let place = save::Place {
            window: windows::rust_window(&saving.window),
            superblock_row: saving.superblock_row as u32,
            pass: saving.pass as u32,
        };
        let rust = save::Prepared::on_record(&self.record, &place, &self.records, field);
        rust.try_call().gave().ok_or("the Rust panicked in save")?;
        let mut after = field.to_vec();
        rust.take_field(&mut after);
        Ok(after)
    }

    /// Cells of the window in no run are INVALID.
    fn loaded_as_traced(&self, window: &Window, runs: &Runs) -> bool {
        let [ih8, stride] = [self.record.ih8, self.record.stride].map(|number| number as usize);
        // The traced decoder had one tile thread: every tile row is the first.
        let mut rows = (window.top..window.bottom.min(ih8)).map(|row| row % 16);
        rows.all(|row| {
            (window.left..window.right).all(|column| {
                let cell = cell_at(&self.projection, row * stride + column);
                match runs.cell([row, column]) {
                    Some(traced) => cell == traced,
                    None => cell[..4] == INVALID,
                }
            })
        })
    }

    /// Cells of the window, which runs to its limit, in no run have reference 0.
    fn saved_as_traced(&self, window: &Window, runs: &Runs, field: &[u8]) -> bool {
        let [iw8, ih8, stride] =
            [self.record.iw8, self.record.ih8, self.record.stride].map(|number| number as usize);
        let limit = match window.right < iw8 {
            true => window.right,
            false => stride,
        };
        (window.top..window.bottom.min(ih8)).all(|row| {
            (window.left..limit).all(|column| {
                let cell = cell_at(field, row * stride + column);
                match runs.cell([row, column]) {
                    Some(traced) => cell == traced,
                    None => cell[4] == 0,
                }
            })
        })
    }
}

fn cell_at(bytes: &[u8], at: usize) -> [u8; CELL_LEN] {
    bytes.as_chunks().0[at]
}

fn told(what: &str, as_rust: bool, as_traced: bool) -> Vec<String> {
    let mut differing = Vec::new();
    if !as_rust {
        differing.push(format!("{what}, not as the Rust's"));
    }
    if !as_traced {
        differing.push(format!("{what}, not as traced"));
    }
    differing
}
