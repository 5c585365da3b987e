//! Sectors that could not be read: whether they matter.

use super::block::{Block, Entry};
use super::discovery::{block_of, is_whole};
use super::layout::{AREA_OFFSET, BLOCK_OFFSET, COPY, SECTOR};

/// The sectors of a lent copy.
pub const COPY_SECTORS: usize = COPY / SECTOR;

/// Which sectors of a lent copy matter: that of the block; then those of the record with the later time; and those of the other record
/// where the later one is not whole.
pub fn matters(copy: &[u8]) -> [bool; COPY_SECTORS] {
    let mut matters = [false; COPY_SECTORS];
    matters[BLOCK_OFFSET / SECTOR] = true;
    if copy.len() != COPY {
        return matters;
    }
    let Ok(block) = Block::read(block_of(copy)) else {
        return matters;
    };
    let later = block.later_entry().unwrap_or(0);
    let [first, second] = [later, 1 - later].map(|area| (area, &block.entries[area]));
    name(&mut matters, first);
    if !is_whole(copy, first.0, first.1) {
        name(&mut matters, second);
    }
    matters
}

/// The sectors of an area that hold bytes of its record.
fn name(matters: &mut [bool; COPY_SECTORS], (area, entry): (usize, &Entry)) {
    let start = AREA_OFFSET[area] / SECTOR;
    let named = (0..).take_while(|sector| SECTOR * sector < entry.bytes as usize);
    for sector in named {
        matters[start + sector] = true;
    }
}

/// Its mark is there, and is 0.
pub fn was_read(marks: &[u8], sector: usize) -> bool {
    marks.get(sector) == Some(&0)
}

/// Every sector that matters was read.
pub fn is_known(copy: &[u8], marks: &[u8]) -> bool {
    (0..).zip(matters(copy)).all(|(sector, matters)| !matters || was_read(marks, sector))
}
