//! A capture file that is made from its parts.

use crate::job::bytes::byte;
use crate::job::bytes::captured;
use crate::job::bytes::half;
use crate::job::load;
use crate::load::edges::cell;
use crate::load::edges::window;
use oracle::frame::Description;
use oracle::leaves::Vector;
use oracle::paper::Job;
use shared::captures;
use shared::captures::Part;

/// Cells in a row of every frame here that isn't wider than 128.
pub const STRIDE: usize = 16;

const FIRST_FIELD: u8 = 16;

/// What a capture file is made from.
#[derive(Clone)]
pub struct Made {
    pub description: Description,
    pub jobs: Vec<Job>,
    pub records: Option<Vec<u8>>,
    pub fields: [Option<Vec<u8>>; 7],
}

impl Made {
    /// 64 x 8 samples, and a load of all of them. Reference 0 is used, and one cell lands.
    pub fn small() -> Self {
        let mut made = Self {
            description: Description {
                width: 64,
                height: 8,
                hint_bits: 3,
                current_hint: 2,
                temporal: 1,
                hints: [1; 7],
                ..Description::SMALLEST
            },
            jobs: vec![load(window([0, 8], [0, 1]))],
            records: None,
            fields: Default::default(),
        };
        made.fields[0] = Some(vec![0; 5 * STRIDE]);
        made.put(0, [0, 3], cell(Vector { y: 0, x: 64 }, 1));
        made
    }

    /// This with something changed.
    pub fn with(&self, change: impl FnOnce(&mut Self)) -> Self {
        let mut changed = self.clone();
        change(&mut changed);
        changed
    }

    /// Puts a cell into a field that is there.
    pub fn put(&mut self, field: usize, [y, x]: [usize; 2], cell: [u8; 5]) {
        let bytes = self.fields[field].as_mut().expect("the field is there");
        bytes.as_chunks_mut().0[STRIDE * y + x] = cell;
    }

    pub fn parts(&self) -> Vec<Part> {
        let jobs = self.jobs.iter().flat_map(captured).collect();
        let mut parts = vec![(1, body(&self.description)), (2, jobs)];
        parts.extend(self.records.clone().map(|records| (4, records)));
        for (kind, field) in (FIRST_FIELD..).zip(&self.fields) {
            parts.extend(field.clone().map(|field| (kind, field)));
        }
        parts
    }

    pub fn file(&self) -> Vec<u8> {
        captures::file(&self.parts())
    }
}

fn body(description: &Description) -> Vec<u8> {
    let mut bytes = [description.width, description.height].map(half).concat();
    let before = [
        description.sb128,
        description.hint_bits,
        description.current_hint,
    ];
    bytes.extend(before.map(byte));
    bytes.extend(description.hints);
    bytes.extend(description.hints_by_ref.as_flattened());
    let behind = [
        description.tile_rows,
        description.tile_threads,
        description.frame_threads,
        description.temporal,
    ];
    bytes.extend(behind.map(byte));
    bytes
}

#[cfg(test)]
mod tests {
    use super::*;
    use oracle::paper::capture::parse;

    #[test]
    fn a_file_is_read_as_it_was_made() {
        let mut made = Made::small().with(|made| {
            made.records = Some(vec![9; 24]);
            made.fields[6] = Some(vec![7; 5]);
            made.description.sb128 = 1;
            made.description.hints = [1, 2, 3, 4, 5, 6, 7];
            made.description.hints_by_ref[6] = [7, 6, 5, 4, 3, 2, 1];
        });
        made.jobs.push(Job {
            kind: 1,
            superblock_row: 300,
            pass: 2,
            ..load(window([1, 257], [600, 4]))
        });
        let file = made.file();
        let capture = parse(&file).unwrap();
        assert_eq!(capture.description, made.description);
        assert_eq!(capture.jobs, made.jobs);
        assert_eq!(capture.records, made.records.as_deref());
        let fields = made.fields.each_ref().map(Option::as_deref);
        assert_eq!(capture.fields, fields);
    }
}
