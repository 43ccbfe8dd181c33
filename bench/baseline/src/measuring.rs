//! The columns of characters and texts.

use crate::widths::RANGES;

/// Characters are looked up in blocks first, most of which take the same columns throughout.
const BLOCK: u32 = 128;
const BLOCKS: [u8; 0x11_0000 / BLOCK as usize] = blocks();

/// A block of several widths.
const MIXED: u8 = u8::MAX;

const fn blocks() -> [u8; 0x11_0000 / BLOCK as usize] {
    let mut blocks = [1; 0x11_0000 / BLOCK as usize];
    let mut at = 0;
    while at < RANGES.len() {
        let (first, last, columns) = RANGES[at];
        let mut block = first / BLOCK;
        while block <= last / BLOCK {
            let is_covered = first <= block * BLOCK && block * BLOCK + (BLOCK - 1) <= last;
            blocks[block as usize] = if is_covered { columns } else { MIXED };
            block += 1;
        }
        at += 1;
    }
    blocks
}

#[inline]
pub fn char_columns(character: char) -> usize {
    let code = character as u32;
    match BLOCKS[(code / BLOCK) as usize] {
        MIXED => in_ranges(code),
        columns => columns as usize,
    }
}

/// The columns of a character, by the last range that doesn't begin behind it.
fn in_ranges(code: u32) -> usize {
    let after = RANGES.partition_point(|range| range.0 <= code);
    match after.checked_sub(1).map(|at| RANGES[at]) {
        Some((_, last, columns)) if code <= last => columns as usize,
        _ => 1,
    }
}

pub fn text_columns(text: &str) -> usize {
    if text.is_ascii() {
        text.len()
    } else {
        text.chars().map(char_columns).sum()
    }
}
