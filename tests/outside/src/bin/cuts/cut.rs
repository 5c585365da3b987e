//! A cut in a list of stores.

use outside::disk::{Disk, Store};
use outside::model::block::{Block, BlockBytes};
use outside::model::layout::SECTOR;
use outside::rng::Rng;
use outside::sample::blocks;

/// What a cut left.
pub struct Cut {
    pub disk: Disk,
    /// The wild sector was a signature block, equals neither its old nor its new version, and is accepted.
    pub excepted: bool,
}

/// Cuts in a group: earlier groups landed whole, later ones have not begun. In this group each sector is old or new,
/// and at most one holds any bytes.
pub fn cut(rng: &mut Rng, before: &Disk, stores: &[Store], group: u8) -> Cut {
    let mut disk = before.clone();
    disk.land(stores.iter().filter(|store| store.group < group));
    let old = disk.clone();
    let running: Vec<&Store> = stores.iter().filter(|store| store.group == group).collect();
    disk.land(choose(rng, &running));
    let mut excepted = false;
    if !running.is_empty() && rng.below(3) > 0 {
        let store = running[rng.index(running.len())];
        let old = old.read(store.sector);
        let bytes = wild(rng, before, &old, &store.bytes);
        disk.write(store.sector, &bytes);
        excepted = is_block(&disk, store.sector) && bytes != old && bytes != store.bytes && Block::read(&bytes).is_ok();
    }
    Cut { disk, excepted }
}

/// The stores of the running group that landed: none, all, the first ones, or any.
fn choose<'a>(rng: &mut Rng, running: &[&'a Store]) -> Vec<&'a Store> {
    let first = rng.index(running.len() + 1);
    match rng.below(6) {
        0 => Vec::new(),
        1 => running.to_vec(),
        2 => running[..first].to_vec(),
        _ => running.iter().copied().filter(|_| rng.coin()).collect(),
    }
}

fn is_block(disk: &Disk, sector: u64) -> bool {
    [0, 1].iter().any(|&side| disk.device.block_sector(side) == sector)
}

/// Any bytes, most often such as a reader could take for the right ones.
fn wild(rng: &mut Rng, disk: &Disk, old: &BlockBytes, new: &BlockBytes) -> BlockBytes {
    let mut bytes = if rng.coin() { *old } else { *new };
    match rng.below(6) {
        0 => rng.fill(&mut bytes),
        1 | 2 => {
            let at = rng.index(SECTOR);
            bytes[at] ^= 1 << rng.below(8);
        }
        3 | 4 => {
            // A part old, the rest new.
            let random = rng.index(SECTOR);
            let at = rng.one_of(&[SECTOR / 2, 4, 96, 116, 128, 148, random]);
            let (first, second) = if rng.coin() { (old, new) } else { (new, old) };
            bytes[..at].copy_from_slice(&first[..at]);
            bytes[at..].copy_from_slice(&second[at..]);
        }
        _ => return another_block(rng, disk),
    }
    bytes
}

/// A block of the same device that could be accepted: the other copy's, or one with other entries.
fn another_block(rng: &mut Rng, disk: &Disk) -> BlockBytes {
    let standing = disk.read(disk.device.block_sector(rng.index(2)));
    match Block::read(&standing) {
        Ok(block) if rng.coin() => Block { entries: blocks::entries(rng), ..block }.encode(),
        _ => standing,
    }
}
