//! Every bit of a block, every length of a record with either head, and every byte of each head item and of a segment.

use outside::interface::Device;
use outside::lent::Lent;
use outside::model::block::{seal, BlockBytes};
use outside::model::layout::SECTOR;
use outside::model::record::Head;
use outside::rng::Rng;
use outside::sample::blocks::block;
use outside::sample::numbers::device;
use outside::sample::records::{all_segments, block_size, encode, low_water, segments};

use crate::run::Run;

/// As many cases as a block has bits.
pub const CASES: u64 = SECTOR as u64 * 8;

pub fn case(run: &mut Run, rng: &mut Rng, number: u64) {
    // The bit is flipped with the CRC left as it was, and with the CRC set again.
    let mut bytes = block(rng).encode();
    bytes[number as usize / 8] ^= 1 << (number % 8);
    read(run, rng, &bytes);
    seal(&mut bytes);
    read(run, rng, &bytes);

    let device = device(rng);
    let size = block_size(rng);
    for head in [Head::plain(size), Head::marked(size, low_water(rng))] {
        let mut longest = encode(head, &all_segments(rng, &device));
        longest.resize(2 * CASES as usize + 200, 0);
        for length in [2 * number as usize, 2 * number as usize + 1] {
            check(run, rng, &device, &longest[..length]);
        }

        // One byte of a head item with one segment, at any value.
        let mut short = encode(head, &segments(rng, &device, 1));
        let at = number as usize % short.len();
        short[at] = rng.next() as u8;
        check(run, rng, &device, &short);
    }
}

fn read(run: &mut Run, rng: &mut Rng, block: &BlockBytes) {
    let block = Lent::holding(rng, block);
    run.ask("block_read", &[&block], |api| api.block_read(block.part()));
}

fn check(run: &mut Run, rng: &mut Rng, device: &Device, record: &[u8]) {
    let record = Lent::holding(rng, record);
    run.ask("record_check", &[&record], |api| api.record_check(*device, record.part()));
}
