//! Interrupt files (000, 8.1.3.1 and 8.1.3.2; 01, Messages).

use crate::types::Pair;

/// A file's size in bytes.
pub const FILE_SIZE: u64 = 512;

/// The offset of an identity's pending doubleword, and its bit there.
pub fn place(identity: u64) -> (u64, u32) {
    (16 * (identity / 64), (identity % 64) as u32)
}

/// The doubleword in eight bytes.
pub fn read(bytes: &[u8]) -> u64 {
    let mut value = 0;
    for (number, byte) in bytes.iter().take(8).enumerate() {
        value |= u64::from(*byte) << (8 * number);
    }
    value
}

/// Writes a doubleword into its eight bytes.
fn write(bytes: &mut [u8], value: u64) {
    for (number, byte) in bytes.iter_mut().take(8).enumerate() {
        *byte = (value >> (8 * number)) as u8;
    }
}

/// Sets an identity's pending bit in a file's bytes; says whether it was set.
pub fn store(file: &mut [u8], identity: u64) -> bool {
    let (offset, bit) = place(identity);
    let doubleword = &mut file[offset as usize..offset as usize + 8];
    let before = read(doubleword);
    write(doubleword, before | 1 << bit);
    before >> bit & 1 == 1
}

/// Clears an identity's pending bit in a file's bytes; says whether it was set.
pub fn take(file: &mut [u8], identity: u64) -> bool {
    let (offset, bit) = place(identity);
    let doubleword = &mut file[offset as usize..offset as usize + 8];
    let before = read(doubleword);
    write(doubleword, before & !(1 << bit));
    before >> bit & 1 == 1
}

/// 02, Req 12: clears those pending bits of a doubleword that are in the mask; gives the ones that were
/// set.
pub fn take_many(file: &mut [u8], doubleword: u64, mask: u64) -> u64 {
    let (offset, _) = place(64 * doubleword);
    let pending = &mut file[offset as usize..offset as usize + 8];
    let before = read(pending);
    let answered = before & mask;
    write(pending, before & !answered);
    answered
}

/// The 32 pairs of a file's bytes.
pub fn pairs(file: &[u8]) -> [Pair; 32] {
    let mut pairs = [Pair::default(); 32];
    for (number, pair) in pairs.iter_mut().enumerate() {
        pair.pending = read(&file[16 * number..]);
        pair.enable = read(&file[16 * number + 8..]);
    }
    pairs
}

/// The number of pending ones, identity 0 included.
pub fn count(pairs: &[Pair; 32]) -> u64 {
    pairs
        .iter()
        .map(|pair| u64::from(pair.pending.count_ones()))
        .sum()
}
