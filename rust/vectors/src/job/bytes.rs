//! A job's bytes.

use oracle::paper::Job;

/// As a capture file has them.
pub fn captured(job: &Job) -> Vec<u8> {
    let [tile_row, columns @ .., row_start, row_end] = job.window.numbers();
    let halves = [columns, [row_start, row_end]].concat();
    let mut bytes = vec![job.kind, byte(tile_row)];
    bytes.extend(halves.into_iter().flat_map(half));
    bytes.extend(half(job.superblock_row));
    bytes.push(byte(job.pass));
    bytes
}

/// As a batch is lent: with the steps done.
pub fn lent(job: &Job) -> Vec<u8> {
    let mut bytes = captured(job);
    bytes.extend(job.done.to_le_bytes());
    bytes
}

pub fn half(number: u32) -> [u8; 2] {
    let number: u16 = number.try_into().expect("the number fits its field");
    number.to_le_bytes()
}

pub fn byte(number: u32) -> u8 {
    number.try_into().expect("the number fits its field")
}
