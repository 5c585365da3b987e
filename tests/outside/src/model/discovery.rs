//! The newest whole record of two copies.

use super::block::{Block, Entry, Time};
use super::crc::crc32;
use super::layout::{AREA_OFFSET, BACK, BLOCK_OFFSET, COPY, FRONT, SECTOR};
use super::refusal::{require, Refusal};

/// An accepted copy: its block, and the area of its present record.
#[derive(Clone, Copy)]
pub struct Reading {
    pub block: Block,
    pub present: Option<usize>,
}

#[derive(Clone, Copy, Debug, PartialEq, Eq)]
pub struct Found {
    pub side: usize,
    pub area: usize,
    pub bytes: usize,
    pub time: Time,
    /// The refusal of the other copy's block, if it was refused.
    pub other: Option<Refusal>,
    /// The block of the copy that has the record.
    pub block: Block,
}

impl Found {
    /// The found record, in the copies that it was found in.
    pub fn record<'a>(&self, copies: [&'a [u8]; 2]) -> &'a [u8] {
        let start = AREA_OFFSET[self.area];
        &copies[self.side][start..start + self.bytes]
    }
}

/// Both copies, each accepted or refused. All that discovery, updates and mending ask about them.
pub struct Pair<'a> {
    copies: [&'a [u8]; 2],
    pub readings: [Result<Reading, Refusal>; 2],
}

/// The signature block of a copy.
pub fn block_of(copy: &[u8]) -> &[u8] {
    &copy[BLOCK_OFFSET..BLOCK_OFFSET + SECTOR]
}

/// The used bytes of an area.
fn used<'a>(copy: &'a [u8], area: usize, entry: &Entry) -> &'a [u8] {
    let start = AREA_OFFSET[area];
    &copy[start..start + entry.bytes as usize]
}

/// The entry is used and the area's first used bytes match its CRC. The entry is that of an accepted block.
pub fn is_whole(copy: &[u8], area: usize, entry: &Entry) -> bool {
    entry.is_used() && crc32(used(copy, area, entry)) == entry.crc
}

/// The whole area with the later time.
fn present(copy: &[u8], block: &Block) -> Option<usize> {
    let later = block.later_entry()?;
    let in_turn = [later, 1 - later];
    in_turn.into_iter().find(|&area| is_whole(copy, area, &block.entries[area]))
}

/// 2 to 9, of a copy that has its size.
pub fn read_copy(copy: &[u8]) -> Result<Reading, Refusal> {
    let block = Block::read(block_of(copy))?;
    Ok(Reading { block, present: present(copy, &block) })
}

impl<'a> Pair<'a> {
    /// 1 for a copy of another size.
    pub fn read(front: &'a [u8], back: &'a [u8]) -> Result<Self, Refusal> {
        require(front.len() == COPY && back.len() == COPY, Refusal::SliceSize)?;
        Ok(Pair { copies: [front, back], readings: [read_copy(front), read_copy(back)] })
    }

    /// 10 to 13.
    pub fn discover(&self) -> Result<Found, Refusal> {
        let [front, back] = &self.readings;
        match (front, back) {
            (Err(_), Err(_)) => Err(Refusal::NoBlock),
            (Ok(reading), Err(other)) => single(FRONT, reading, *other),
            (Err(other), Ok(reading)) => single(BACK, reading, *other),
            (Ok(front), Ok(back)) => {
                require(front.block.identity == back.block.identity, Refusal::Identity)?;
                let (side, area) = self.newest(front, back)?;
                let block = if side == FRONT { &front.block } else { &back.block };
                Ok(found(side, area, block, None))
            }
        }
    }

    /// The side and the area of the newest present record of two accepted copies.
    fn newest(&self, front: &Reading, back: &Reading) -> Result<(usize, usize), Refusal> {
        let (a, b) = match (front.present, back.present) {
            (None, None) => return Err(Refusal::NoRecord),
            (Some(area), None) => return Ok((FRONT, area)),
            (None, Some(area)) => return Ok((BACK, area)),
            (Some(a), Some(b)) => (a, b),
        };
        let (x, y) = (&front.block.entries[a], &back.block.entries[b]);
        if x.time > y.time {
            return Ok((FRONT, a));
        }
        if x.time < y.time {
            return Ok((BACK, b));
        }
        let same = used(self.copies[FRONT], a, x) == used(self.copies[BACK], b, y);
        require(same, Refusal::TwoRecords)?;
        Ok((FRONT, a))
    }

    pub fn in_step(&self) -> bool {
        let [Ok(front), Ok(back)] = &self.readings else {
            return false;
        };
        let (Some(a), Some(b)) = (front.block.later_entry(), back.block.later_entry()) else {
            return false;
        };
        let (x, y) = (&front.block.entries[a], &back.block.entries[b]);
        front.block.identity == back.block.identity
            && front.present == Some(a)
            && back.present == Some(b)
            && x.time == y.time
            && used(self.copies[FRONT], a, x) == used(self.copies[BACK], b, y)
    }
}

fn single(side: usize, reading: &Reading, other: Refusal) -> Result<Found, Refusal> {
    let area = reading.present.ok_or(Refusal::NoRecord)?;
    Ok(found(side, area, &reading.block, Some(other)))
}

fn found(side: usize, area: usize, block: &Block, other: Option<Refusal>) -> Found {
    let entry = &block.entries[area];
    Found { side, area, bytes: entry.bytes as usize, time: entry.time, other, block: *block }
}

/// 1, 10 to 13.
pub fn discover(front: &[u8], back: &[u8]) -> Result<Found, Refusal> {
    Pair::read(front, back)?.discover()
}
