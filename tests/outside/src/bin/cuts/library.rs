//! What the library says of a disk: discovery, in step, and the stores of updates and mends.

use outside::disk::{Disk, Store};
use outside::ffi::Library;
use outside::interface::{Interface, StoreAnswer};
use outside::model::block::Time;
use outside::model::layout::{AREA_OFFSET, RECORD_LIMIT, SECTOR};
use outside::rng::Rng;

/// A record with its time.
#[derive(Clone, Debug, PartialEq, Eq)]
pub struct Stamped {
    pub time: Time,
    pub record: Vec<u8>,
}

/// The stores of an update or a mend, and the copies in memory with all of them applied.
pub struct Plan {
    pub stores: Vec<Store>,
    pub memory: [Vec<u8>; 2],
}

/// The record that discovery gives: it answers that length and time, the area that it names starts with those bytes,
/// and reading what it found copies them to a buffer's start.
pub fn discover(rng: &mut Rng, disk: &Disk) -> Result<Stamped, String> {
    let copies = disk.copies();
    let [front, back] = &copies;
    let found = Library.discover(front, back);
    if found.refusal.number != 0 {
        return Err(format!("discovery refuses with {}", found.refusal.number));
    }
    let (side, area, bytes) = (usize::from(found.side), usize::from(found.area), found.bytes as usize);
    if side > 1 || area > 1 || bytes > RECORD_LIMIT || found.block.device != disk.device {
        return Err(format!("discovery answers {found:?}"));
    }
    let start = AREA_OFFSET[area];
    let record = copies[side][start..start + bytes].to_vec();

    let before = rng.bytes(RECORD_LIMIT);
    let mut buffer = before.clone();
    let again = Library.read_found(front, back, &mut buffer);
    if again != found {
        return Err(format!("reading answers {again:?}, discovery {found:?}"));
    }
    if buffer[..bytes] != record || buffer[bytes..] != before[bytes..] {
        return Err("reading gives other bytes than the named area".to_string());
    }
    Ok(Stamped { time: found.time, record })
}

pub fn in_step(disk: &Disk) -> bool {
    let [front, back] = disk.copies();
    let step = Library.in_step(&front, &back);
    step.refusal.number == 0 && step.in_step
}

/// The stores of an update, or what is wrong.
pub fn update(disk: &Disk, new: &Stamped) -> Result<Plan, String> {
    let [front, back] = disk.copies();
    let answer = Library.update_plan(&front, &back, new.time, &new.record);
    if answer.refusal.number != 0 {
        return Err(format!("refused with {}", answer.refusal.number));
    }
    let plan = answer.plan;
    let store = |[front, back]: [&[u8]; 2], number, bytes: &mut [u8]| {
        let answer = Library.update_store(plan, front, back, &new.record, number, bytes);
        (answer, Library.update_group(plan, number))
    };
    stores(disk, Library.update_count(plan), store)
}

/// The stores of a mend, or what is wrong.
pub fn mend(disk: &Disk) -> Result<Plan, String> {
    let [front, back] = disk.copies();
    let answer = Library.mend_plan(&front, &back);
    if answer.refusal.number != 0 {
        return Err(format!("refused with {}", answer.refusal.number));
    }
    let plan = answer.plan;
    let store = |[front, back]: [&[u8]; 2], number, bytes: &mut [u8]| {
        let answer = Library.mend_store(plan, front, back, number, bytes);
        (answer, Library.mend_group(plan, number))
    };
    stores(disk, Library.mend_count(plan), store)
}

/// So many stores, each asked for with the copies as they were, and with the earlier ones applied: both are the same.
fn stores(
    disk: &Disk,
    count: u64,
    ask: impl Fn([&[u8]; 2], u64, &mut [u8]) -> (StoreAnswer, u8),
) -> Result<Plan, String> {
    let copies = disk.copies();
    let mut memory = copies.clone();
    let mut stores: Vec<Store> = Vec::new();
    let mut flushed = true;
    for number in 0..count {
        let mut bytes = [[0; SECTOR]; 2];
        let [first, second] = &mut bytes;
        let (answer, group) = ask([&copies[0], &copies[1]], number, first);
        let again = ask([&memory[0], &memory[1]], number, second);
        if answer.refusal.number != 0 {
            return Err(format!("store {number} is refused with {}", answer.refusal.number));
        }
        if again != (answer, group) || bytes[0] != bytes[1] {
            return Err(format!("store {number} is another with the earlier ones applied"));
        }
        if flushed != stores.last().is_none_or(|last| last.group != group) {
            return Err(format!("store {number}: a group that does not begin after a flush"));
        }
        flushed = answer.flush;
        let [front, back] = &mut memory;
        let applied = Library.apply(disk.device, answer.sector, &bytes[0], front, back);
        if applied.number != 0 {
            return Err(format!("store {number} is not applied: {}", applied.number));
        }
        stores.push(Store { sector: answer.sector, bytes: bytes[0], group });
    }
    if !flushed {
        return Err("no flush after the last store".to_string());
    }
    Ok(Plan { stores, memory })
}
