//! What may be wrong with a search.

use super::question::FindQuestion;
use crate::split_mix::SplitMix64;

/// One thing of an accepted search changed. It may still be accepted.
pub fn damage(random: &mut SplitMix64, question: &mut FindQuestion) {
    match random.below(8) {
        0 => change_frame(random, question),
        1 => change_flag(random, question),
        2 => change_ask(random, question),
        3 => change_bounds(random, question),
        4 => change_places(random, question),
        5 => change_record(random, question),
        6 => change_cell(random, question),
        _ => shorten(random, question),
    }
}

fn change_frame(random: &mut SplitMix64, question: &mut FindQuestion) {
    let record = &mut question.record;
    match random.below(10) {
        0 => record.width = [0, 16_385, u32::MAX][random.below(3)],
        1 => record.ih4 += 1,
        2 => record.iw8 -= 1,
        3 => record.sbsz = 48 - record.sbsz,
        4 => record.stride += 1,
        5 => record.n_blocks += 1,
        6 => record.n_frame_threads = 0,
        7 => record.use_ref_frame_mvs = 2,
        8 => record.hints[random.below(7)].pocdiff = [31, 32, -31, -32][random.below(4)],
        _ => record.n_mfmvs = 4,
    }
}

fn change_flag(random: &mut SplitMix64, question: &mut FindQuestion) {
    let ask = &mut question.ask;
    let flag = [2, 255][random.below(2)];
    match random.below(4) {
        0 => ask.above_right = flag,
        1 => ask.globals[random.below(2)].above = flag,
        2 => ask.integer = flag,
        _ => ask.hp = flag,
    }
}

/// A number to a limit or past it.
fn change_ask(random: &mut SplitMix64, question: &mut FindQuestion) {
    let (ask, table) = (&mut question.ask, &question.table);
    let component = [16_383, 16_384, -16_383, -16_384, i16::MIN][random.below(5)];
    match random.below(7) {
        0 => ask.by4 = [table.row_end, table.row_start.wrapping_sub(1)][random.below(2)],
        1 => ask.bx4 = [table.col_end, table.col_start.wrapping_sub(1)][random.below(2)],
        2 => ask.size = [21, 22, 255][random.below(3)],
        3 => ask.references[0] = [0, 1, 7, 8, -1][random.below(5)],
        4 => ask.references[1] = [0, 1, 7, 8, -1, -2][random.below(6)],
        5 => ask.globals[random.below(2)].mv.y = component,
        _ => ask.globals[random.below(2)].mv.x = component,
    }
}

fn change_bounds(random: &mut SplitMix64, question: &mut FindQuestion) {
    let (record, table) = (&question.record, &mut question.table);
    match random.below(4) {
        0 => table.col_start += 1,
        1 => table.row_start += 1,
        2 => table.col_end = record.iw4 + 1,
        _ => table.row_end = record.ih4 + 1,
    }
}

/// Entries of the table, mostly those near the block's row, or the place in the projection.
fn change_places(random: &mut SplitMix64, question: &mut FindQuestion) {
    let near = question.ask.by4 as usize % 32 + random.below(8);
    let entry = [near.min(36), random.below(37)][usize::from(random.below(4) == 0)];
    let table = &mut question.table;
    match random.below(6) {
        0..3 => table.entries[entry] = None,
        3 => table.entries[entry] = Some(question.lens[0] / 12),
        4 => table.entries[entry] = Some(u32::MAX - 1),
        _ => table.projection = question.lens[1] / 5,
    }
}

/// A record that is read: a field to a limit or past it, or another size.
fn change_record(random: &mut SplitMix64, question: &mut FindQuestion) {
    let Some((_, record)) = any(random, &mut question.records) else {
        return;
    };
    match random.below(6) {
        0 => record[8] = [0, 7, 8, 255][random.below(4)],
        1 => record[9] = [0, 7, 8, 255, 254][random.below(5)],
        2 => record[10] = [22, 255][random.below(2)],
        3 => record[11] = [0, 3, 4, 255][random.below(4)],
        _ => record[10] = [0, 3, 6, 21][random.below(4)],
    }
}

fn change_cell(random: &mut SplitMix64, question: &mut FindQuestion) {
    let Some((_, cell)) = any(random, &mut question.cells) else {
        return;
    };
    let component: i16 = [4095, 4096, -4095, -4096][random.below(4)];
    match random.below(3) {
        0 => cell[..2].copy_from_slice(&component.to_le_bytes()),
        1 => cell[2..4].copy_from_slice(&component.to_le_bytes()),
        _ => cell[4] = [0, 1, 31, 32, 255][random.below(5)],
    }
}

fn any<'a, T>(random: &mut SplitMix64, all: &'a mut [T]) -> Option<&'a mut T> {
    match all.len() {
        0 => None,
        count => Some(&mut all[random.below(count)]),
    }
}

fn shorten(random: &mut SplitMix64, question: &mut FindQuestion) {
    let len = &mut question.lens[random.below(2)];
    *len -= random.below(40) as u32;
}
