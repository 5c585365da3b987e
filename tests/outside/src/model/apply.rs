//! Stores on the two copies in memory, and the stores that write two whole copies.

use super::block::BlockBytes;
use super::layout::{Device, BACK, COPY, FRONT, SECTOR};
use super::refusal::{require, Refusal};

/// Applies a store to the copies where its sector lies in one. 1, 4, 7, 8.
pub fn apply(device: &Device, sector: u64, bytes: &[u8], copies: [&mut [u8]; 2]) -> Result<(), Refusal> {
    let sizes = copies.iter().all(|copy| copy.len() == COPY) && bytes.len() == SECTOR;
    require(sizes, Refusal::SliceSize)?;
    device.check()?;
    for (side, copy) in copies.into_iter().enumerate() {
        for (place, part) in device.copy_sectors(side).into_iter().zip(copy.chunks_exact_mut(SECTOR)) {
            if place == sector {
                part.copy_from_slice(bytes);
            }
        }
    }
    Ok(())
}

/// Which sectors of which copy each group of formatting's stores writes: areas before headers, the back before the front.
const GROUPS: [(usize, std::ops::Range<usize>); 4] = [(BACK, 8..40), (BACK, 0..8), (FRONT, 8..40), (FRONT, 0..8)];

/// A store of formatting: its group, the copy and the sector of that copy, and whether it is the last of its group.
pub struct FormatStore {
    pub group: u8,
    pub side: usize,
    pub position: usize,
    pub flush: bool,
}

pub fn format_count() -> u64 {
    GROUPS.iter().map(|(_, sectors)| sectors.len() as u64).sum()
}

/// `None` past the last store.
pub fn format_store(number: u64) -> Option<FormatStore> {
    let mut before = 0;
    for (group, (side, sectors)) in (0..).zip(GROUPS) {
        let end = before + sectors.len() as u64;
        if number < end {
            let position = sectors.start + (number - before) as usize;
            return Some(FormatStore { group, side, position, flush: number + 1 == end });
        }
        before = end;
    }
    None
}

/// A store's bytes, the sector that they go to, and whether a flush is due. 1, 4, 7, 8, 23.
pub fn format_bytes(
    device: &Device,
    copies: [&[u8]; 2],
    number: u64,
    bytes: &mut BlockBytes,
) -> Result<(u64, bool), Refusal> {
    require(copies.iter().all(|copy| copy.len() == COPY), Refusal::SliceSize)?;
    device.check()?;
    let FormatStore { side, position, flush, .. } = format_store(number).ok_or(Refusal::NoStore)?;
    bytes.copy_from_slice(&copies[side][position * SECTOR..][..SECTOR]);
    Ok((device.copy_sectors(side)[position], flush))
}
