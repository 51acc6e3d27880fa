//! A frame record, a row table and an ask in bytes, as the port lays them out.

use oracle::paper::FrameRecord;
use oracle::paper::RowTable;
use oracle::search::Ask;
use oracle::search::Global;

pub const FRAME_LEN: usize = 109;
pub const TILE_LEN: usize = 168;
pub const ASK_LEN: usize = 24;

pub const SKIPPED: i16 = i16::MIN;

pub const ABSENT: u32 = u32::MAX;

pub fn frame_bytes(record: &FrameRecord) -> [u8; FRAME_LEN] {
    let mut bytes = Vec::with_capacity(FRAME_LEN);
    bytes.extend(record.sizes().into_iter().flat_map(u32::to_le_bytes));
    bytes.extend([record.use_ref_frame_mvs, record.temporal, record.n_mfmvs]);
    for hint in &record.hints {
        bytes.extend([hint.sign_bias, hint.mfmv_sign]);
        bytes.extend(i16::from(hint.pocdiff).to_le_bytes());
    }
    for slot in &record.slots {
        bytes.push(slot.reference);
        bytes.extend(slot.ref2cur.map_or(SKIPPED, i16::from).to_le_bytes());
        bytes.extend(slot.ref2ref);
    }
    bytes.try_into().expect("the fields have 109 bytes")
}

pub fn tile_bytes(table: &RowTable) -> [u8; TILE_LEN] {
    let entries = table.entries.map(|entry| entry.unwrap_or(ABSENT));
    let bounds = [
        table.col_start,
        table.col_end,
        table.row_start,
        table.row_end,
    ];
    let numbers = entries.into_iter().chain([table.projection]).chain(bounds);
    let bytes: Vec<u8> = numbers.flat_map(u32::to_le_bytes).collect();
    bytes.try_into().expect("42 numbers have 168 bytes")
}

pub fn ask_bytes(ask: &Ask) -> [u8; ASK_LEN] {
    let mut bytes = ask.references.map(|reference| reference as u8).to_vec();
    bytes.extend([ask.size, ask.above_right]);
    bytes.extend([ask.by4, ask.bx4].into_iter().flat_map(u32::to_le_bytes));
    for Global { mv, above } in ask.globals {
        bytes.extend([mv.y, mv.x].into_iter().flat_map(i16::to_le_bytes));
        bytes.push(above);
    }
    bytes.extend([ask.integer, ask.hp]);
    bytes.try_into().expect("the fields have 24 bytes")
}
