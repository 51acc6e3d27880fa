//! The bodies of a traced decoder's events.

use cases::frames::Question;
use jaskkovir::tmvs::Window;
use oracle::paper::FrameRecord;

/// A body that is read from its start. An event has all its bytes.
pub struct Cursor<'a>(pub &'a [u8]);

impl Cursor<'_> {
    pub fn bytes<const N: usize>(&mut self) -> [u8; N] {
        let (first, rest) = self
            .0
            .split_first_chunk()
            .expect("the event has its length");
        self.0 = rest;
        *first
    }

    pub fn u8(&mut self) -> u8 {
        let [byte] = self.bytes();
        byte
    }

    pub fn u16(&mut self) -> u16 {
        u16::from_le_bytes(self.bytes())
    }
}

/// The capture file's kind 1 and the mask of the fields lent; then two flags that setup doesn't read,
/// high precision and integer vectors.
pub fn question(body: &mut Cursor) -> (Question, [u8; 2]) {
    let [width, height] = [body.u16().into(), body.u16().into()];
    let [sb128, hint_bits, current_hint] = body.bytes();
    let (hints, hints_by_ref) = (body.bytes(), body.bytes());
    let [tile_rows, tile_threads, frame_threads] = body.bytes().map(usize::from);
    let [temporal, mask] = body.bytes();
    let question = Question {
        numbers: [width, height, tile_rows, tile_threads, frame_threads],
        sb128,
        hint_bits: hint_bits.into(),
        current_hint: current_hint.into(),
        hints,
        hints_by_ref,
        temporal,
        present: std::array::from_fn(|i| mask >> i & 1),
    };
    (question, body.bytes())
}

/// A record in the form of the traced decoder's. Its tile columns are no matter of setup: they are
/// taken from the trace.
pub fn finished(record: &FrameRecord, tile_columns: u8) -> Vec<u8> {
    let mask = |flags: [u8; 7]| (0..7).fold(0, |mask, i| mask | flags[i] << i);
    let mut bytes = vec![
        record.n_mfmvs,
        record.use_ref_frame_mvs,
        tile_columns,
        mask(record.hints.map(|hint| hint.sign_bias)),
        mask(record.hints.map(|hint| hint.mfmv_sign)),
    ];
    bytes.extend(record.hints.map(|hint| hint.pocdiff as u8));
    bytes.extend(record.slots.map(|slot| slot.reference));
    bytes.extend(
        record
            .slots
            .map(|slot| slot.ref2cur.unwrap_or(i8::MIN) as u8),
    );
    bytes.extend(record.slots.iter().flat_map(|slot| slot.ref2ref));
    bytes
}

/// The window of a load or save, and the cells that the decoder had in it afterwards.
pub fn window(body: &mut Cursor) -> (Window, Runs) {
    let tile_row = body.u8().into();
    let [left, right, top, bottom] = std::array::from_fn(|_| body.u16().into());
    let window = Window {
        tile_row,
        left,
        right,
        top,
        bottom,
    };
    let runs = (0..body.u16()).map(|_| body.bytes()).collect();
    (window, Runs(runs))
}

/// Runs of cells: row, column, length, then the cell.
pub struct Runs(Vec<[u8; 8]>);

impl Runs {
    /// The cell of this row and column, if a run has it.
    pub fn cell(&self, [row, column]: [usize; 2]) -> Option<[u8; 5]> {
        let has = |run: &&[u8; 8]| {
            let [at_row, first, len, ..] = run.map(usize::from);
            at_row == row && (first..first + len).contains(&column)
        };
        let [_, _, _, cell @ ..] = *self.0.iter().find(has)?;
        Some(cell)
    }
}
