//! Mending: the stores that bring the other copy in step with the found record.

use super::block::{Block, BlockBytes, Entry, Identity};
use super::discovery::{block_of, Found, Pair};
use super::layout::{AREA_OFFSET, BACK, FRONT, RECORD_LIMIT};
use super::refusal::{require, Refusal};
use super::update::{record_sector, sectors_of};

pub const GROUPS: u8 = 4;

/// A mend; of copies in step all is zero. Its stores follow from it and the copies, when they are asked for.
#[derive(Clone, Copy, Debug, Default, PartialEq, Eq)]
pub struct Mend {
    /// There is something to store.
    pub needed: bool,
    /// The copy that is kept, the area of the found record in it, and the record's length.
    pub kept: usize,
    pub area: usize,
    pub bytes: u32,
    /// The kept copy's later entry is not whole: a last store blanks it.
    pub last: bool,
}

/// Works a mend out. 1, 10 to 13.
pub fn plan(front: &[u8], back: &[u8]) -> Result<Mend, Refusal> {
    let pair = Pair::read(front, back)?;
    let Found { side, area, bytes, block, .. } = pair.discover()?;
    if pair.in_step() {
        return Ok(Mend::default());
    }
    let last = block.later_entry() != Some(area);
    Ok(Mend { needed: true, kept: side, area, bytes: bytes as u32, last })
}

impl Mend {
    fn record_sectors(&self) -> u64 {
        sectors_of(self.bytes as usize)
    }

    pub fn count(&self) -> u64 {
        if self.needed {
            self.record_sectors() + 2 + u64::from(self.last)
        } else {
            0
        }
    }

    /// The group of a store; `GROUPS` past the last one.
    pub fn group(&self, number: u64) -> u8 {
        let sectors = self.record_sectors();
        match number {
            _ if number >= self.count() => GROUPS,
            0 => 0,
            _ if number <= sectors => 1,
            _ if number == sectors + 1 => 2,
            _ => 3,
        }
    }

    /// The store is the last of its group. It is one of the plan's.
    pub fn flush(&self, number: u64) -> bool {
        self.group(number) != self.group(number + 1)
    }

    /// A store's bytes, and the sector that they go to. The copies have their size; they are those that the plan was made of,
    /// perhaps with earlier stores applied, or any. 15 and 1 for the kept record's length, 23; then 4, 7, 8 for the device numbers
    /// of the kept copy, and the writer's 6 and 9.
    pub fn store(&self, copies: [&[u8]; 2], number: u64, bytes: &mut BlockBytes) -> Result<u64, Refusal> {
        require(self.needed, Refusal::NoStore)?;
        let Block { identity, mut entries } = Block::fields(block_of(copies[self.kept]));
        let entry = entries[self.area];
        let length = entry.bytes as usize;
        require((1..=RECORD_LIMIT).contains(&length), Refusal::RecordLength)?;
        require(entry.bytes == self.bytes, Refusal::SliceSize)?;
        require(number < self.count(), Refusal::NoStore)?;
        let Identity { device, .. } = identity;
        device.check()?;
        let other = if self.kept == FRONT { BACK } else { FRONT };
        let sectors = self.record_sectors();
        let other_block = |entry| Block { identity, entries: [entry, Entry::UNUSED] };
        if number == 0 {
            *bytes = other_block(Entry::UNUSED).write()?;
            Ok(device.block_sector(other))
        } else if number <= sectors {
            let index = number - 1;
            let record = &copies[self.kept][AREA_OFFSET[self.area]..][..length];
            record_sector(record, index, bytes);
            Ok(device.area_sector(other, 0) + index)
        } else if number == sectors + 1 {
            *bytes = other_block(entry).write()?;
            Ok(device.block_sector(other))
        } else {
            entries[1 - self.area] = Entry::UNUSED;
            *bytes = Block { identity, entries }.write()?;
            Ok(device.block_sector(self.kept))
        }
    }
}
