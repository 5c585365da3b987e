//! Updates: refusals, and the stores in their groups.

use super::block::{Block, BlockBytes, Entry, Time, MAX_NANOSECONDS};
use super::discovery::{block_of, Pair};
use super::layout::{BACK, FRONT, SECTOR};
use super::record::check_record;
use super::refusal::{require, Refusal};

pub const GROUPS: u8 = 4;

/// An update: the new entry. Its stores follow from it, the copies and the record, when they are asked for.
#[derive(Clone, Copy, Debug, PartialEq, Eq)]
pub struct Update {
    pub entry: Entry,
    /// The area that the record goes to, in the front and in the back.
    pub areas: [usize; 2],
}

/// Works an update out. 1, 10 to 13, 16, 9, 14, 15, 17, 18, 19, in this order.
pub fn plan(front: &[u8], back: &[u8], time: Time, record: &[u8]) -> Result<Update, Refusal> {
    let pair = Pair::read(front, back)?;
    let found = pair.discover()?;
    require(pair.in_step(), Refusal::NotInStep)?;
    require(time.nanoseconds <= MAX_NANOSECONDS, Refusal::AreaEntry)?;
    require(time > found.time, Refusal::NotLater)?;
    let [Ok(front), Ok(back)] = &pair.readings else {
        return Err(Refusal::NotInStep);
    };
    let (Some(a), Some(b)) = (front.present, back.present) else {
        return Err(Refusal::NotInStep);
    };
    check_record(&front.block.identity.device, record)?;
    Ok(Update { entry: Entry::of_record(record, time), areas: [1 - a, 1 - b] })
}

/// The sectors that a record of that many bytes takes.
pub fn sectors_of(bytes: usize) -> u64 {
    bytes.div_ceil(SECTOR) as u64
}

/// One sector of a record, the last one filled with zeros.
pub fn record_sector(record: &[u8], index: u64, bytes: &mut BlockBytes) {
    let start = index as usize * SECTOR;
    let part = &record[start..record.len().min(start + SECTOR)];
    bytes[..part.len()].copy_from_slice(part);
    bytes[part.len()..].fill(0);
}

impl Update {
    fn record_sectors(&self) -> u64 {
        sectors_of(self.entry.bytes as usize)
    }

    pub fn count(&self) -> u64 {
        2 * self.record_sectors() + 2
    }

    /// The group of a store; `GROUPS` past the last one.
    pub fn group(&self, number: u64) -> u8 {
        let half = self.record_sectors() + 1;
        if number >= self.count() {
            GROUPS
        } else {
            2 * u8::from(number >= half) + u8::from(number % half == half - 1)
        }
    }

    /// The store is the last of its group. It is one of the plan's.
    pub fn flush(&self, number: u64) -> bool {
        self.group(number) != self.group(number + 1)
    }

    /// A store's bytes, and the sector that they go to. The copies have their size, and the record the plan's length; the
    /// copies are those that the plan was made of, perhaps with earlier stores applied, or any. 23; then 4, 7, 8 for the device
    /// numbers of the side's copy, and the writer's 6 and 9.
    pub fn store(
        &self,
        copies: [&[u8]; 2],
        record: &[u8],
        number: u64,
        bytes: &mut BlockBytes,
    ) -> Result<u64, Refusal> {
        require(number < self.count(), Refusal::NoStore)?;
        let half = self.record_sectors() + 1;
        let side = if number < half { FRONT } else { BACK };
        let (index, area) = (number % half, self.areas[side]);
        let mut block = Block::fields(block_of(copies[side]));
        let device = block.identity.device;
        device.check()?;
        if index < half - 1 {
            record_sector(record, index, bytes);
            Ok(device.area_sector(side, area) + index)
        } else {
            block.entries[area] = self.entry;
            *bytes = block.write()?;
            Ok(device.block_sector(side))
        }
    }
}
