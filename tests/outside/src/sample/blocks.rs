//! Signature blocks.

use super::numbers::{
    break_metadata, break_nanoseconds, break_reserved, break_sectors, identity, not_hex, spread, time,
};
use crate::model::block::{seal, Block, BlockBytes, Entry, Time, ENTRY_OFFSET, ZERO_FIELDS};
use crate::model::layout::RECORD_LIMIT;
use crate::rng::Rng;

/// A used entry within its limits; its CRC is any number.
pub fn entry(rng: &mut Rng) -> Entry {
    let time = if rng.once_in(8) { Time::default() } else { time(rng) };
    let bytes = spread(rng, 1, RECORD_LIMIT as u64) as u32;
    let random = rng.next() as u32;
    Entry { time, bytes, crc: rng.one_of(&[0, u32::MAX, random, random, random]) }
}

/// Two entries, used or unused, with different times where both are used.
pub fn entries(rng: &mut Rng) -> [Entry; 2] {
    loop {
        let mut choose = || if rng.once_in(4) { Entry::UNUSED } else { entry(rng) };
        let mut entries = [choose(), choose()];
        let [a, b] = &mut entries;
        if rng.once_in(4) {
            b.time.seconds = a.time.seconds;
        }
        let both = a.is_used() && b.is_used();
        if b.is_used() == (b.bytes > 0) && !(both && a.time == b.time) {
            return entries;
        }
    }
}

/// An accepted block.
pub fn block(rng: &mut Rng) -> Block {
    Block { identity: identity(rng), entries: entries(rng) }
}

/// Two entries that break a limit, or have one time.
pub fn broken_entries(rng: &mut Rng) -> [Entry; 2] {
    let mut entries = [entry(rng), if rng.coin() { entry(rng) } else { Entry::UNUSED }];
    if rng.coin() {
        entries.swap(0, 1);
    }
    let area = rng.index(2);
    let nanoseconds = break_nanoseconds(rng);
    match rng.below(6) {
        0 => entries[area].time.nanoseconds = nanoseconds,
        1 => {
            let random = rng.next() as u32 | 1 << 14;
            entries[area].bytes = rng.one_of(&[8_193, 8_194, u32::MAX, random]);
        }
        2 => {
            entries[area] = Entry { bytes: 0, ..entry(rng) };
            entries[area].crc |= 1;
        }
        // One field alone that is not zero, with no used bytes.
        3 => {
            let mut entry = Entry::UNUSED;
            match rng.below(3) {
                0 => entry.time.seconds = spread(rng, 1, u64::MAX),
                1 => entry.time.nanoseconds = spread(rng, 1, u64::from(u32::MAX)) as u32,
                _ => entry.crc = spread(rng, 1, u64::from(u32::MAX)) as u32,
            }
            entries[area] = entry;
        }
        _ => {
            entries = [entry(rng), entry(rng)];
            entries[1].time = entries[0].time;
        }
    }
    entries
}

/// Brings the fault of one refusal number, 2 to 9, into a block, and sets its CRC except for 3.
pub fn damage(rng: &mut Rng, block: &mut BlockBytes, refusal: u64) {
    match refusal {
        2 => flip(rng, block, 4..20),
        3 => {
            if rng.coin() {
                flip(rng, block, 0..4);
            } else {
                flip(rng, block, 20..512);
            }
            return;
        }
        4 => {
            let sectors = break_sectors(rng);
            block[20..28].copy_from_slice(&sectors.to_le_bytes());
        }
        5 => {
            let range = &ZERO_FIELDS[rng.index(ZERO_FIELDS.len())];
            let (first, last) = (range.start, range.end - 1);
            let at = first + rng.index(range.len());
            let at = rng.one_of(&[first, last, at]);
            block[at] ^= 1 << rng.below(8);
        }
        6 => {
            let at = rng.within(32, 95);
            let at = rng.one_of(&[32, 63, 64, 95, at]) as usize;
            block[at] = not_hex(rng);
        }
        7 => {
            let metadata = break_metadata(rng);
            block[160..164].copy_from_slice(&metadata.to_le_bytes());
        }
        8 => {
            let reserved = break_reserved(rng);
            block[164..168].copy_from_slice(&reserved.to_le_bytes());
        }
        _ => {
            for (entry, at) in broken_entries(rng).iter().zip(ENTRY_OFFSET) {
                block[at..at + 8].copy_from_slice(&entry.time.seconds.to_le_bytes());
                block[at + 8..at + 12].copy_from_slice(&entry.time.nanoseconds.to_le_bytes());
                block[at + 12..at + 16].copy_from_slice(&entry.bytes.to_le_bytes());
                block[at + 16..at + 20].copy_from_slice(&entry.crc.to_le_bytes());
            }
        }
    }
    seal(block);
}

fn flip(rng: &mut Rng, block: &mut BlockBytes, range: std::ops::Range<usize>) {
    let at = range.start + rng.index(range.len());
    block[at] ^= 1 << rng.below(8);
}
