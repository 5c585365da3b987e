//! Copies that arrive in pieces: the copies, how they are cut, and states that no call made.

use super::blocks::{block, damage};
use super::copies::{any_pair, copy, get_block, put_block, Area};
use super::numbers::{identity, later, time};
use crate::model::block::{seal, u32_at, BlockBytes, ENTRY_OFFSET};
use crate::model::layout::{AREA_OFFSET, BLOCK_OFFSET, COPY, RECORD_LIMIT, SECTOR};
use crate::model::receive::{used, State};
use crate::rng::Rng;

/// Where parts of a copy begin and end: its block, and the used bytes of each area.
pub type Edges = [usize; 6];

pub fn edges(block: &BlockBytes) -> Edges {
    let [a, b] = [0, 1].map(|area| AREA_OFFSET[area] + used(block, area));
    [BLOCK_OFFSET, BLOCK_OFFSET + SECTOR, AREA_OFFSET[0], a, AREA_OFFSET[1], b]
}

/// Places to cut a copy at, in any order; two that are the same are a piece of nothing. One past the copy is at its end.
pub type Shape = fn(&mut Rng, Edges) -> Vec<usize>;

pub const SHAPES: &[(&str, Shape)] = &[
    ("cut: one piece", |_, _| Vec::new()),
    ("cut: two pieces", |rng, edges| vec![place(rng, edges)]),
    ("cut: three pieces", |rng, edges| vec![place(rng, edges), place(rng, edges)]),
    ("cut: anywhere", |rng, edges| {
        let count = rng.within(3, 40);
        (0..count).map(|_| place(rng, edges)).collect()
    }),
    ("cut: at every edge", |_, edges| edges.to_vec()),
    ("cut: one before every edge", |_, edges| edges.map(|edge| edge - 1).to_vec()),
    ("cut: one past every edge", |_, edges| edges.map(|edge| edge + 1).to_vec()),
    ("cut: byte by byte around every edge", |_, edges| {
        edges.into_iter().flat_map(|edge| edge - 3..=edge + 3).collect()
    }),
    ("cut: byte by byte in the block", |_, _| (BLOCK_OFFSET - 1..=BLOCK_OFFSET + SECTOR + 1).collect()),
    ("cut: byte by byte in an entry", |rng, _| {
        let start = BLOCK_OFFSET + ENTRY_OFFSET[rng.index(2)];
        (start..=start + 20).collect()
    }),
    ("cut: pieces of 512", |_, _| every(512)),
    ("cut: pieces of 4096", |_, _| every(4_096)),
    ("cut: pieces of one length", |rng, _| {
        let power = 1 << rng.within(4, 14);
        let random = rng.index(power);
        let length = rng.one_of(&[power - 1, power, power + 1, power + random, 1_460, 20_479]);
        every(length)
    }),
    ("cut: pieces of nothing", |rng, edges| {
        let count = rng.within(1, 6);
        let mut cuts = vec![0, 0, COPY];
        cuts.extend((0..count).map(|_| place(rng, edges)));
        cuts.extend(edges);
        cuts.repeat(2)
    }),
    ("cut: byte by byte", |_, _| every(1)),
];

/// Any place of a copy, often one at an edge or beside one.
fn place(rng: &mut Rng, edges: Edges) -> usize {
    let near = rng.one_of(&edges) + rng.index(3) - 1;
    let random = rng.index(COPY + 1);
    rng.one_of(&[near, near, random])
}

fn every(length: usize) -> Vec<usize> {
    (length..COPY).step_by(length).collect()
}

/// The lengths of the pieces of a copy that is cut so.
pub fn lengths(rng: &mut Rng, copy: &[u8], shape: Shape) -> Vec<usize> {
    let mut cuts: Vec<usize> = shape(rng, edges(&get_block(copy))).into_iter().map(|cut| cut.min(COPY)).collect();
    cuts.sort_unstable();
    let ends = cuts.iter().copied().chain([COPY]);
    let starts = [0].into_iter().chain(cuts.iter().copied());
    ends.zip(starts).map(|(end, start)| end - start).collect()
}

/// A copy in any state; at times its block is refused, each number as often as another.
pub fn any_copy(rng: &mut Rng) -> Vec<u8> {
    let mut bytes = match rng.below(16) {
        0 => return rng.bytes(COPY),
        1 => return vec![0; COPY],
        2..6 => {
            let (_, [front, _]) = any_pair(rng);
            front
        }
        _ => sized_copy(rng),
    };
    if rng.once_in(3) {
        let mut block = get_block(&bytes);
        let refusal = rng.within(2, 9);
        damage(rng, &mut block, refusal);
        put_block(&mut bytes, &block);
    }
    bytes
}

/// A copy whose records have the lengths at the limits, and any other; each area is whole, torn or unused.
fn sized_copy(rng: &mut Rng) -> Vec<u8> {
    let identity = identity(rng);
    let (first, second) = loop {
        let first = time(rng);
        if let Some(second) = later(rng, first) {
            break (first, second);
        }
    };
    let mut times = [first, second];
    if rng.coin() {
        times.swap(0, 1);
    }
    let areas = times.map(|time| {
        let random = rng.within(1, RECORD_LIMIT as u64) as usize;
        let choices = [1, 2, 28, 511, 512, 513, RECORD_LIMIT - 1, RECORD_LIMIT, RECORD_LIMIT, random, random, random];
        let length = rng.one_of(&choices);
        let record = rng.bytes(length);
        match rng.below(8) {
            0 => Area::Unused,
            1 | 2 => Area::Torn(time, record),
            _ => Area::Whole(time, record),
        }
    });
    copy(rng, &identity, &areas)
}

/// A state that no call made: any count, any block and any checksums, often those that its entries have.
pub fn any_state(rng: &mut Rng) -> State {
    let block = any_block(rng);
    let sums = [0, 1].map(|area| {
        let own = u32_at(&block, ENTRY_OFFSET[area] + 16);
        let near = own ^ 1 << rng.below(32);
        let random = rng.next() as u32;
        rng.one_of(&[own, own, own, own, near, 0, random])
    });
    State { taken: any_count(rng, &block), block, sums }
}

/// A count within a copy, often at an edge; at its end; past it; or one that a sum with a length wraps at, in 32 bits or in 64.
fn any_count(rng: &mut Rng, block: &BlockBytes) -> usize {
    let within = place(rng, edges(block)).min(COPY);
    let past = COPY + 1 + rng.index(COPY);
    let wrapped = (1 << 32) + rng.index(COPY + 1);
    let last = usize::MAX - rng.index(COPY);
    let random = (rng.next() >> rng.below(64)) as usize;
    let counts = [within, within, within, within, COPY, COPY, COPY, COPY + 1, past, wrapped, last, usize::MAX, random];
    rng.one_of(&counts)
}

/// The bytes of a block: accepted, refused, with lengths of records at the limits and past them, or any.
fn any_block(rng: &mut Rng) -> BlockBytes {
    let mut bytes = block(rng).encode();
    match rng.below(8) {
        0 => rng.fill(&mut bytes),
        1 => bytes = [0; SECTOR],
        2 => {
            let refusal = rng.within(2, 9);
            damage(rng, &mut bytes, refusal);
        }
        3 => {
            for at in ENTRY_OFFSET {
                let random = rng.next() as u32 >> rng.below(32);
                let length = rng.one_of(&[0, 1, 8_191, 8_192, 8_193, 1 << 13 | 1 << 16, u32::MAX, random]);
                bytes[at + 12..at + 16].copy_from_slice(&length.to_le_bytes());
            }
            seal(&mut bytes);
        }
        _ => {}
    }
    bytes
}

/// A length for a piece after so many bytes: nothing, up to the end, one byte past it, more; or one that a sum wraps with. No more than
/// two copies.
pub fn piece_length(rng: &mut Rng, taken: usize) -> usize {
    let left = COPY.saturating_sub(taken);
    let wraps = (usize::MAX - taken).saturating_add(1 + rng.index(3)).min(2 * COPY);
    let fits = rng.index(left + 1);
    let random = rng.index(2 * COPY);
    rng.one_of(&[0, 1, left, left + 1, left.saturating_sub(1), fits, fits, fits, random, wraps])
}
