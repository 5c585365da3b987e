//! Plans that no call made, and copies that are not a plan's.

use outside::interface::{Device, EntryFields, MendPlan, Time, UpdatePlan};
use outside::model::block::{is_uuid, seal, Block, Identity, ENTRY_OFFSET};
use outside::model::discovery::block_of;
use outside::model::layout::RECORD_LIMIT;
use outside::rng::Rng;
use outside::sample::blocks::damage;
use outside::sample::copies::{any_pair, get_block, put_block};
use outside::sample::numbers::{break_nanoseconds, spread, time};

/// The copies as they are, or others: of another device, in each other's place, or with blocks that are not accepted.
pub fn foreign_copies(rng: &mut Rng, copies: [&[u8]; 2]) -> [Vec<u8>; 2] {
    let mut copies = copies.map(<[u8]>::to_vec);
    match rng.below(8) {
        0 => return any_pair(rng).1,
        1 => copies.swap(0, 1),
        2 | 3 => {}
        _ => {
            for copy in &mut copies {
                let mut block = get_block(copy);
                match rng.below(8) {
                    0 => rng.fill(&mut block),
                    // A device that ends just below 2^64, at times with areas that would reach past it.
                    1 => {
                        let sectors = u64::MAX - rng.below(4);
                        block[20..28].copy_from_slice(&sectors.to_le_bytes());
                        let small = rng.below(8) as u32;
                        let metadata = rng.one_of(&[small, Device::MIN_METADATA, Device::MAX_METADATA]);
                        block[160..164].copy_from_slice(&metadata.to_le_bytes());
                        if rng.coin() {
                            seal(&mut block);
                        }
                    }
                    // More than one fault: of the device numbers, and of a UUID.
                    2 => {
                        for _ in 0..2 {
                            let refusal = rng.one_of(&[4, 6, 6, 7, 8]);
                            damage(rng, &mut block, refusal);
                        }
                    }
                    // Device numbers for which a difference would be negative.
                    3 => {
                        let sectors = rng.next() >> rng.within(30, 63);
                        block[20..28].copy_from_slice(&sectors.to_le_bytes());
                        let metadata = rng.next() as u32 >> rng.below(32);
                        block[160..164].copy_from_slice(&metadata.to_le_bytes());
                    }
                    // Nanoseconds of an entry past their limit.
                    4 => {
                        let at = ENTRY_OFFSET[rng.index(2)] + 8;
                        let nanoseconds = break_nanoseconds(rng);
                        block[at..at + 4].copy_from_slice(&nanoseconds.to_le_bytes());
                    }
                    _ => {
                        let refusal = rng.within(2, 9);
                        damage(rng, &mut block, refusal);
                    }
                }
                put_block(copy, &block);
            }
        }
    }
    copies
}

/// What the device numbers in a copy's block are refused with, if they are: 4, 7 or 8.
pub fn broken_numbers(copy: &[u8]) -> Option<u64> {
    let device = Block::fields(block_of(copy)).identity.device;
    device.check().err().map(|refusal| u64::from(refusal.number()))
}

/// A UUID in a copy's block has a byte that is not allowed.
pub fn broken_uuid(copy: &[u8]) -> bool {
    let Identity { pool_uuid, device_uuid, .. } = Block::fields(block_of(copy)).identity;
    !(is_uuid(&pool_uuid) && is_uuid(&device_uuid))
}

/// A side, an area or yes: 0 and 1, or any number.
fn choice(rng: &mut Rng) -> u8 {
    let random = rng.next() as u8;
    rng.one_of(&[0, 1, 0, 1, 2, 0x80, 0xff, random])
}

/// The entries in the blocks of two copies, read without a test.
fn entries(copies: [&[u8]; 2]) -> [EntryFields; 4] {
    let [[a, b], [c, d]] = copies.map(|copy| Block::fields(block_of(copy)).entries.map(EntryFields::from));
    [a, b, c, d]
}

fn any_bytes(rng: &mut Rng) -> u32 {
    let random = rng.next() as u32 >> rng.below(32);
    let near = spread(rng, 0, RECORD_LIMIT as u64 + 2) as u32;
    rng.one_of(&[0, 1, 511, 512, 513, 8_192, 8_193, u32::MAX, random, near, near])
}

/// An update near a real one, or any; where there is no real one, mostly of this length.
pub fn made_up_update(rng: &mut Rng, real: UpdatePlan, copies: [&[u8]; 2], length: usize) -> UpdatePlan {
    let mut plan = real;
    if real == UpdatePlan::default() {
        let Time { seconds, nanoseconds } = time(rng);
        plan.entry = EntryFields { seconds, nanoseconds, bytes: length as u32, checksum: rng.next() as u32 };
        (plan.front, plan.back) = (choice(rng), choice(rng));
    }
    if rng.once_in(16) {
        let (seconds, nanoseconds, checksum) = (rng.next(), rng.next() as u32, rng.next() as u32);
        plan.entry = EntryFields { seconds, nanoseconds, bytes: any_bytes(rng), checksum };
    }
    for _ in 0..rng.below(4) {
        let entry = &mut plan.entry;
        match rng.below(8) {
            0 => entry.seconds = spread(rng, 0, u64::MAX),
            1 => entry.nanoseconds = break_nanoseconds(rng),
            2 => entry.bytes = any_bytes(rng),
            3 => entry.checksum = rng.next() as u32,
            // A time that an entry has already.
            4 => {
                let other = rng.one_of(&entries(copies));
                (entry.seconds, entry.nanoseconds) = (other.seconds, other.nanoseconds);
            }
            5 | 6 => plan.front = choice(rng),
            _ => plan.back = choice(rng),
        }
    }
    plan
}

/// A mend near a real one, or any; mostly of a length that an entry has.
pub fn made_up_mend(rng: &mut Rng, real: MendPlan, copies: [&[u8]; 2]) -> MendPlan {
    let mut plan = real;
    if rng.below(4) > 0 {
        let needed = if rng.once_in(8) { 0 } else { choice(rng).max(1) };
        let (kept, area) = (choice(rng), choice(rng));
        let entry = entries(copies)[2 * usize::from(kept != 0) + usize::from(area != 0)];
        plan = MendPlan { bytes: entry.bytes, needed, kept, area, last: choice(rng) };
    }
    if rng.coin() {
        match rng.below(6) {
            0 => plan.bytes = any_bytes(rng),
            1 => plan.bytes = plan.bytes.wrapping_add(rng.one_of(&[1, u32::MAX])),
            2 => plan.needed = choice(rng),
            3 => plan.kept = choice(rng),
            4 => plan.area = choice(rng),
            _ => plan.last = choice(rng),
        }
    }
    plan
}

/// A number below the count, often one of the last of a group, near it, or any.
pub fn store_number(rng: &mut Rng, count: u64) -> u64 {
    if count > 0 && rng.below(8) > 0 {
        let inside = rng.below(count.min(40));
        let last = [1, 2, 3, count / 2 + 2].map(|back| count.saturating_sub(back));
        let last = rng.one_of(&last);
        rng.one_of(&[inside, inside, last])
    } else {
        let random = rng.next() >> rng.below(64);
        rng.one_of(&[count, count + 1, count.saturating_sub(1), u64::MAX, random])
    }
}
