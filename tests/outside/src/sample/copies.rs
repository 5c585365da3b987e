//! Pairs of copies.

use super::blocks;
use super::numbers::{self, earlier};
use super::records;
use crate::model::block::{Block, BlockBytes, Entry, Identity, Time};
use crate::model::layout::{AREA_OFFSET, BLOCK_OFFSET, COPY, RECORD_LIMIT, SECTOR};
use crate::rng::Rng;

/// What an area of a copy holds.
#[derive(Clone)]
pub enum Area {
    Unused,
    Whole(Time, Vec<u8>),
    /// An entry whose bytes or CRC are damaged.
    Torn(Time, Vec<u8>),
}

pub fn put_block(copy: &mut [u8], block: &BlockBytes) {
    copy[BLOCK_OFFSET..BLOCK_OFFSET + SECTOR].copy_from_slice(block);
}

pub fn get_block(copy: &[u8]) -> BlockBytes {
    let mut block = [0; SECTOR];
    block.copy_from_slice(&copy[BLOCK_OFFSET..BLOCK_OFFSET + SECTOR]);
    block
}

/// A copy with these areas; every byte that they do not decide is random.
pub fn copy(rng: &mut Rng, identity: &Identity, areas: &[Area; 2]) -> Vec<u8> {
    let mut copy = rng.bytes(COPY);
    let mut entries = [Entry::UNUSED; 2];
    for ((area, entry), start) in areas.iter().zip(&mut entries).zip(AREA_OFFSET) {
        let (time, record) = match area {
            Area::Unused => continue,
            Area::Whole(time, record) | Area::Torn(time, record) => (*time, record),
        };
        *entry = Entry::of_record(record, time);
        copy[start..start + record.len()].copy_from_slice(record);
        if matches!(area, Area::Torn(..)) {
            tear(rng, &mut copy[start..start + record.len()], entry);
        }
    }
    put_block(&mut copy, &Block { identity: *identity, entries }.encode());
    copy
}

/// Damages an area: a bit, a sector, or the CRC in its entry.
fn tear(rng: &mut Rng, record: &mut [u8], entry: &mut Entry) {
    match rng.below(4) {
        0 => entry.crc ^= 1 << rng.below(32),
        1 => {
            let start = rng.index(record.len().div_ceil(SECTOR)) * SECTOR;
            let end = record.len().min(start + SECTOR);
            let before = record[start];
            rng.fill(&mut record[start..end]);
            record[start] = before ^ 0x10;
        }
        2 => {
            let last = record.len() - 1;
            record[last] ^= 1 << rng.below(8);
        }
        _ => {
            let at = rng.index(record.len());
            record[at] ^= 1 << rng.below(8);
        }
    }
}

/// A record for discovery: any bytes, or an accepted record.
pub fn payload(rng: &mut Rng, identity: &Identity) -> Vec<u8> {
    if rng.coin() {
        let count = records::segment_count(rng);
        return records::record(rng, &identity.device, count);
    }
    let random = rng.within(1, RECORD_LIMIT as u64) as usize;
    let length = rng.one_of(&[1, 28, 511, 512, 513, 8_191, RECORD_LIMIT, random, random]);
    rng.bytes(length)
}

fn area(rng: &mut Rng, times: &[Time], records: &[Vec<u8>]) -> Area {
    let time = times[rng.index(times.len())];
    let record = records[rng.index(records.len())].clone();
    match rng.below(8) {
        0 => Area::Unused,
        1 | 2 => Area::Torn(time, record),
        _ => Area::Whole(time, record),
    }
}

/// Two copies of one device in any state: few times and few records, so that ties occur; blocks damaged at times.
pub fn any_pair(rng: &mut Rng) -> (Identity, [Vec<u8>; 2]) {
    let identity = numbers::identity(rng);
    let count = 1 + rng.index(3);
    let mut payloads: Vec<Vec<u8>> = (0..count).map(|_| payload(rng, &identity)).collect();
    if rng.once_in(3) {
        payloads.push(near(rng, &payloads[0]));
    }
    let count = 1 + rng.index(4);
    let times = numbers::times(rng, count);
    let mut identities = [identity; 2];
    if rng.once_in(10) {
        identities[rng.index(2)] = numbers::other_identity(rng, &identity);
    }
    let mut copies = identities.map(|identity| {
        let areas = [area(rng, &times, &payloads), area(rng, &times, &payloads)];
        copy(rng, &identity, &areas)
    });
    if rng.once_in(8) {
        copies.swap(0, 1);
    }
    damage_pair(rng, &mut copies);
    (identity, copies)
}

/// Another record that differs in one bit, or in its length.
fn near(rng: &mut Rng, record: &[u8]) -> Vec<u8> {
    let mut near = record.to_vec();
    let last = near.len() - 1;
    match rng.below(3) {
        0 => near[last] ^= 1,
        1 if last > 0 => near.truncate(last),
        _ => near[0] ^= 0x80,
    }
    near
}

/// Damages the blocks and the bytes of two copies at times.
pub fn damage_pair(rng: &mut Rng, copies: &mut [Vec<u8>; 2]) {
    let both = rng.once_in(16);
    for copy in copies.iter_mut() {
        if both || rng.once_in(8) {
            let mut block = get_block(copy);
            let refusal = rng.within(2, 9);
            blocks::damage(rng, &mut block, refusal);
            put_block(copy, &block);
        }
        if rng.once_in(16) {
            let at = rng.index(COPY);
            copy[at] ^= 1 << rng.below(8);
        }
        // A torn store: one sector with other bytes, or with half of them.
        if rng.once_in(16) {
            let start = rng.index(COPY / SECTOR) * SECTOR;
            let end = start + rng.one_of(&[SECTOR, SECTOR / 2]);
            rng.fill(&mut copy[start..end]);
        }
        // The areas change places.
        if rng.once_in(32) {
            let (a, b) = copy[AREA_OFFSET[0]..].split_at_mut(RECORD_LIMIT);
            a.swap_with_slice(b);
        }
    }
}

/// Two copies in step on a record.
pub fn in_step(rng: &mut Rng, identity: &Identity, time: Time, record: &[u8]) -> [Vec<u8>; 2] {
    [(), ()].map(|()| {
        let other = match earlier(rng, time) {
            None => Area::Unused,
            Some(time) => match rng.below(4) {
                0 => Area::Unused,
                1 => Area::Torn(time, payload(rng, identity)),
                2 => Area::Whole(time, record.to_vec()),
                _ => Area::Whole(time, payload(rng, identity)),
            },
        };
        let mut areas = [Area::Whole(time, record.to_vec()), other];
        if rng.coin() {
            areas.swap(0, 1);
        }
        copy(rng, identity, &areas)
    })
}
