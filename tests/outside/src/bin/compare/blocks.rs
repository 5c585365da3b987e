//! Signature blocks and places.

use outside::interface::BlockFields;
use outside::lent::Lent;
use outside::model::block::Block;
use outside::model::layout::{Device, SECTOR};
use outside::rng::Rng;
use outside::sample::blocks::{block, broken_entries, damage};
use outside::sample::numbers::{any_device, break_device, break_sectors, not_hex, spread, wrong_length};

use crate::run::Run;

pub fn case(run: &mut Run, rng: &mut Rng, _: u64) {
    match rng.below(4) {
        0 => write(run, rng),
        1 => places(run, rng),
        _ => read(run, rng),
    }
}

/// The right length, or at times a wrong one.
pub fn length(rng: &mut Rng, right: usize) -> usize {
    if rng.once_in(40) {
        wrong_length(rng, right)
    } else {
        right
    }
}

fn read(run: &mut Run, rng: &mut Rng) {
    let written = block(rng);
    let mut bytes = written.encode();
    match rng.below(8) {
        0..3 => {}
        3 => {
            let at = rng.index(SECTOR);
            bytes[at] ^= 1 << rng.below(8);
        }
        4 => rng.fill(&mut bytes[SECTOR / 2..]),
        // One fault, or several at once.
        _ => loop {
            let refusal = rng.within(2, 9);
            damage(rng, &mut bytes, refusal);
            if rng.coin() {
                break;
            }
        },
    }
    let mut bytes = bytes.to_vec();
    let size = length(rng, SECTOR);
    bytes.resize(size, 0);
    let input = Lent::holding(rng, &bytes);
    let outcome = run.ask("block_read", &[&input], |api| api.block_read(input.part()));
    if outcome.number() == 0 {
        write_again(run, rng, &input, outcome.answer.block);
    }
}

/// Writing what was read gives the same 512 bytes.
fn write_again(run: &mut Run, rng: &mut Rng, block: &Lent<u8>, read: BlockFields) {
    let lent = [Lent::random(rng, SECTOR)];
    let written = run.both("block_write", &[], lent, [], |api, [bytes], []| api.block_write(read, bytes.part_mut()));
    let same = written.number() == 0 && written.library.0[0].part() == block.part();
    run.require("block_write", same, "writing what was read gives other bytes");
}

fn write(run: &mut Run, rng: &mut Rng) {
    let Block { mut identity, mut entries } = block(rng);
    while rng.coin() {
        match rng.below(4) {
            0 => break_device(rng, &mut identity.device),
            1 => identity.pool_uuid[rng.index(32)] = not_hex(rng),
            2 => identity.device_uuid[rng.index(32)] = not_hex(rng),
            _ => entries = broken_entries(rng),
        }
    }
    let block = BlockFields::from(Block { identity, entries });
    let size = length(rng, SECTOR);
    let lent = [Lent::random(rng, size)];
    let outcome = run.both("block_write", &[], lent, [], |api, [bytes], []| api.block_write(block, bytes.part_mut()));
    if outcome.number() == 0 {
        // Reading what was written gives the same fields.
        let [bytes] = &outcome.library.0;
        let read = run.ask("block_read", &[bytes], |api| api.block_read(bytes.part()));
        let same = read.number() == 0 && read.answer.block == block;
        run.require("block_read", same, "reading what was written gives other fields");
    }
}

/// A UUID in a slice that is at times too short or too long.
pub fn uuid_slice(rng: &mut Rng, uuid: &[u8; 32]) -> Lent<u8> {
    let mut bytes = uuid.to_vec();
    let size = length(rng, 32);
    bytes.resize(size, b'0');
    Lent::holding(rng, &bytes)
}

/// Places, and the blocks of a drive of any size. They agree where both are given.
fn places(run: &mut Run, rng: &mut Rng) {
    let device = any_device(rng);
    let placed = run.ask("places", &[], |api| api.places(device));
    let below = break_sectors(rng);
    let any = spread(rng, 0, u64::MAX);
    let sectors = rng.one_of(&[device.sectors, device.sectors, below, any, Device::MIN_SECTORS]);
    let located = run.ask("locate_blocks", &[], |api| api.locate_blocks(sectors));
    if placed.number() == 0 && sectors == device.sectors {
        let map = placed.answer.map;
        let same = (map.front.block, map.back.block) == (located.answer.front, located.answer.back);
        run.require("locate_blocks", same, "the blocks lie elsewhere than the places say");
        run.reached("locate_blocks, as the places say");
    }
}
