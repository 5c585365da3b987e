//! A copy that arrives in pieces: the state between them, byte by byte as it is defined.

use super::block::{u32_at, Block, BlockBytes, ENTRY_OFFSET};
use super::crc::{crc32, crc32_continued};
use super::layout::{AREA_OFFSET, BLOCK_OFFSET, COPY, RECORD_LIMIT, SECTOR};
use super::refusal::{require, Refusal};

/// The state: how many bytes were taken, those of the signature block in their places, and of each area the CRC of what was taken of
/// its used bytes.
#[derive(Clone, Copy, Debug, PartialEq, Eq)]
pub struct State {
    pub taken: usize,
    pub block: BlockBytes,
    pub sums: [u32; 2],
}

/// A copy that was taken whole: its block, whether each area is whole, and the area of its present record.
#[derive(Clone, Copy, Debug, PartialEq, Eq)]
pub struct Taken {
    pub block: Block,
    pub whole: [bool; 2],
    pub present: Option<usize>,
}

/// How many of an area's bytes are used, as its entry in these bytes of a block says; none where no record has that length.
pub fn used(block: &BlockBytes, area: usize) -> usize {
    let bytes = u32_at(block, ENTRY_OFFSET[area] + 12) as usize;
    if (1..=RECORD_LIMIT).contains(&bytes) {
        bytes
    } else {
        0
    }
}

/// The copy has no more bytes than a copy has with a piece of this length.
pub fn fits(taken: usize, length: usize) -> bool {
    taken as u128 + length as u128 <= COPY as u128
}

impl State {
    /// Before the first piece: nothing taken, no byte of the block, and the CRC of no bytes.
    pub const FRESH: State = State { taken: 0, block: [0; SECTOR], sums: [0; 2] };

    /// The state after a piece. 1, and then none of it is taken.
    pub fn with(&self, piece: &[u8]) -> Result<State, Refusal> {
        require(fits(self.taken, piece.len()), Refusal::SliceSize)?;
        let mut next = *self;
        next.taken += piece.len();
        for (place, &byte) in (self.taken..).zip(piece) {
            if (BLOCK_OFFSET..BLOCK_OFFSET + SECTOR).contains(&place) {
                next.block[place - BLOCK_OFFSET] = byte;
            }
        }
        for (area, start) in AREA_OFFSET.into_iter().enumerate() {
            let used = start..start + used(&next.block, area);
            for (place, &byte) in (self.taken..).zip(piece) {
                if used.contains(&place) {
                    next.sums[area] = crc32_continued(next.sums[area], &[byte]);
                }
            }
        }
        Ok(next)
    }

    /// The copy whose pieces were taken. 1 to 9.
    pub fn end(&self) -> Result<Taken, Refusal> {
        require(self.taken == COPY, Refusal::SliceSize)?;
        let block = Block::read(&self.block)?;
        let whole = [0, 1].map(|area| block.entries[area].is_used() && block.entries[area].crc == self.sums[area]);
        let later = block.later_entry().unwrap_or(0);
        let present = [later, 1 - later].into_iter().find(|&area| whole[area]);
        Ok(Taken { block, whole, present })
    }

    /// The state after pieces that are these bytes when they are joined, however they were cut: the other way to say the same. No more
    /// bytes than a copy has.
    pub fn of_joined(joined: &[u8]) -> State {
        let part = |start: usize, length: usize| {
            let [start, end] = [start, start + length].map(|at| at.min(joined.len()));
            &joined[start..end]
        };
        let mut state = State { taken: joined.len(), ..State::FRESH };
        let block = part(BLOCK_OFFSET, SECTOR);
        state.block[..block.len()].copy_from_slice(block);
        state.sums = [0, 1].map(|area| crc32(part(AREA_OFFSET[area], used(&state.block, area))));
        state
    }
}

#[cfg(test)]
mod tests {
    use super::super::discovery::{is_whole, read_copy};
    use super::*;
    use crate::rng::Rng;
    use crate::sample::copies::any_pair;
    use crate::sample::pieces::{lengths, SHAPES};

    /// However a copy is cut, the states are those of the joined bytes, and the end reads what the copy at once has.
    #[test]
    fn as_joined() {
        let mut rng = Rng::new(3);
        for number in 0..40 * SHAPES.len() {
            let copy = &any_pair(&mut rng).1[number % 2];
            let (_, shape) = SHAPES[number % SHAPES.len()];
            let mut state = State::FRESH;
            for length in lengths(&mut rng, copy, shape) {
                if state.taken < COPY {
                    assert_eq!(state.end(), Err(Refusal::SliceSize));
                }
                state = state.with(&copy[state.taken..][..length]).expect("a piece of the copy");
                if length > 1 || rng.once_in(512) {
                    assert_eq!(state, State::of_joined(&copy[..state.taken]));
                }
            }
            assert_eq!(state, State::of_joined(copy));
            let at_once = read_copy(copy).map(|reading| {
                let whole = [0, 1].map(|area| is_whole(copy, area, &reading.block.entries[area]));
                Taken { block: reading.block, whole, present: reading.present }
            });
            assert_eq!(state.end(), at_once);
            assert_eq!(state.with(&[]), Ok(state));
            assert_eq!(state.with(&[0]), Err(Refusal::SliceSize));
        }
    }
}
