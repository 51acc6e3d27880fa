//! Random block records.

use shared::split_mix::SplitMix64;

/// How many size codes there are.
pub const SIZES: usize = 22;

/// A buffer of this many bytes of records, and more bytes behind them. Any bytes but for the size
/// codes, which the Rust can't hold otherwise.
pub fn buffer(random: &mut SplitMix64, listed: usize, more: usize) -> Vec<u8> {
    let some: [u8; 251] = random.bytes();
    let mut bytes: Vec<u8> = some.into_iter().cycle().take(listed + more).collect();
    for record in bytes[..listed].as_chunks_mut::<12>().0 {
        record[10] %= SIZES as u8;
    }
    bytes
}

/// Some well-formed record.
pub fn any(random: &mut SplitMix64) -> [u8; 12] {
    let references = [random.within(0, 7), random.within(-1, 7)];
    let mut bytes = [0; 12];
    for (i, reference) in references.into_iter().enumerate() {
        for at in [4 * i, 4 * i + 2] {
            let component = component(random, reference);
            bytes[at..at + 2].copy_from_slice(&component.to_le_bytes());
        }
        bytes[8 + i] = reference as u8;
    }
    bytes[10] = random.below(SIZES) as u8;
    bytes[11] = random.below(4) as u8;
    bytes
}

/// Most components may be saved. Without a reference the vector is free.
fn component(random: &mut SplitMix64, reference: i32) -> i16 {
    if reference < 1 {
        return [i16::MIN, i16::MAX, 0, 1][random.below(4)];
    }
    match random.below(10) {
        0 => [4095, -4095, 16_383, -16_383][random.below(4)],
        1 => [4096, -4096][random.below(2)],
        2 => random.component(16_383),
        _ => random.component(4095),
    }
}
