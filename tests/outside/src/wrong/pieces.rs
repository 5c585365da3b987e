//! Copies that arrive in pieces, begun, taken or ended otherwise than they have to be.

use std::ops::Range;

use super::chosen;
use crate::interface::{Answer, BlockFields, CopyAnswer, Interface, ReceiveAnswer, Received, Refused};
use crate::model::block::{u32_at, Block, BlockBytes, ENTRY_OFFSET};
use crate::model::crc::crc32_continued;
use crate::model::layout::{AREA_OFFSET, BLOCK_OFFSET, COPY, SECTOR};
use crate::model::receive::used;
use crate::model::Model;

pub enum Wrong {
    /// A call in place of the right one.
    Begin(fn() -> Received),
    Piece(fn(Received, &[u8]) -> ReceiveAnswer),
    End(fn(Received) -> CopyAnswer),
}

/// Where the block lies in a copy.
const BLOCK: Range<usize> = BLOCK_OFFSET..BLOCK_OFFSET + SECTOR;

pub const WRONG: &[(&str, Wrong)] = &[
    (
        "begun with checksums of all ones",
        Wrong::Begin(|| Received { a: u32::MAX, b: u32::MAX, ..Model.receive_begin() }),
    ),
    (
        "the first byte of an area not taken",
        Wrong::Piece(|kept, piece| summed(kept, piece, |_, new, area| from(area) + 1..from(area) + used(new, area))),
    ),
    (
        "the last byte of an area not taken",
        Wrong::Piece(|kept, piece| {
            summed(kept, piece, |_, new, area| from(area)..from(area) + used(new, area).saturating_sub(1))
        }),
    ),
    (
        "a byte past an area taken",
        Wrong::Piece(|kept, piece| {
            summed(kept, piece, |_, new, area| match used(new, area) {
                0 => 0..0,
                used => from(area)..from(area) + used + 1,
            })
        }),
    ),
    (
        "the last byte of a piece not summed",
        Wrong::Piece(|kept, piece| {
            let right = Model.receive_piece(kept, piece);
            let short = Model.receive_piece(kept, &piece[..piece.len().saturating_sub(1)]).received;
            with(right, |received| (received.a, received.b) = (short.a, short.b))
        }),
    ),
    (
        "the length of area a for both areas",
        Wrong::Piece(|kept, piece| summed(kept, piece, |_, new, area| from(area)..from(area) + used(new, 0))),
    ),
    (
        "an area's length read before the piece's block",
        Wrong::Piece(|kept, piece| summed(kept, piece, |old, _, area| from(area)..from(area) + used(old, area))),
    ),
    (
        "a length past the limit summed",
        Wrong::Piece(|kept, piece| {
            summed(kept, piece, |_, new, area| {
                let length = u32_at(new, ENTRY_OFFSET[area] + 12) as usize;
                from(area)..from(area) + length.min(8_192)
            })
        }),
    ),
    (
        "the checksums exchanged",
        Wrong::Piece(|kept, piece| {
            let right = Model.receive_piece(kept, piece);
            with(right, |received| (received.a, received.b) = (received.b, received.a))
        }),
    ),
    (
        "area b summed into area a",
        Wrong::Piece(|kept, piece| {
            let right = Model.receive_piece(kept, piece);
            match right.received.b == kept.b {
                true => right,
                false => with(right, |received| (received.a, received.b) = (received.b, kept.b)),
            }
        }),
    ),
    (
        "a checksum begun again at each piece",
        Wrong::Piece(|kept, piece| {
            let again = Model.receive_piece(Received { a: 0, b: 0, ..kept }, piece).received;
            with(Model.receive_piece(kept, piece), |received| {
                // Where the piece has some of the area.
                received.a = if received.a == kept.a { kept.a } else { again.a };
                received.b = if received.b == kept.b { kept.b } else { again.b };
            })
        }),
    ),
    ("a piece past the end taken in part", Wrong::Piece(|kept, piece| Model.receive_piece(kept, part(kept, piece)))),
    (
        "a piece past the end refused and counted",
        Wrong::Piece(|kept, piece| {
            refused(kept, piece, |received| received.taken = received.taken.saturating_add(piece.len()))
        }),
    ),
    (
        "a piece past the end refused and its block laid in",
        Wrong::Piece(|kept, piece| {
            let taken = Model.receive_piece(kept, part(kept, piece)).received;
            refused(kept, piece, |received| received.block = taken.block)
        }),
    ),
    (
        "a piece past the end refused and summed",
        Wrong::Piece(|kept, piece| {
            let taken = Model.receive_piece(kept, part(kept, piece)).received;
            refused(kept, piece, |received| received.b = taken.b)
        }),
    ),
    (
        "a piece past the end gives zeros",
        Wrong::Piece(|kept, piece| refused(kept, piece, |received| *received = Model.receive_begin())),
    ),
    (
        "20480 bytes refused",
        Wrong::Piece(|kept, piece| refusing(kept, piece, |kept, piece| kept.taken + piece.len() == COPY)),
    ),
    ("a piece of nothing refused", Wrong::Piece(|kept, piece| refusing(kept, piece, |_, piece| piece.is_empty()))),
    (
        "a piece of nothing refused after the last byte",
        Wrong::Piece(|kept, piece| refusing(kept, piece, |kept, piece| kept.taken == COPY && piece.is_empty())),
    ),
    (
        "a piece of nothing taken past the copy",
        Wrong::Piece(|kept, piece| match piece {
            [] => ReceiveAnswer { refusal: Refused::default(), received: kept },
            _ => Model.receive_piece(kept, piece),
        }),
    ),
    (
        "20481 bytes taken",
        Wrong::Piece(|kept, piece| counting(kept, piece, |taken, length| taken.saturating_add(length) <= COPY + 1)),
    ),
    (
        "a sum that wraps",
        Wrong::Piece(|kept, piece| counting(kept, piece, |taken, length| taken.wrapping_add(length) <= COPY)),
    ),
    (
        "a sum of 32 bits",
        Wrong::Piece(|kept, piece| {
            counting(kept, piece, |taken, length| (taken as u32).wrapping_add(length as u32) as usize <= COPY)
        }),
    ),
    (
        "the block laid one byte off",
        Wrong::Piece(|kept, piece| {
            let right = Model.receive_piece(kept, piece);
            let before = Received { taken: kept.taken.wrapping_sub(1), ..kept };
            match right.number() == 0 && kept.taken > 0 {
                true => with(right, |received| received.block = Model.receive_piece(before, piece).received.block),
                false => right,
            }
        }),
    ),
    (
        "the first byte of the block not laid in",
        Wrong::Piece(|kept, piece| laying(kept, piece, |place, _| place != BLOCK.start)),
    ),
    (
        "the last byte of the block not laid in",
        Wrong::Piece(|kept, piece| laying(kept, piece, |place, _| place != BLOCK.end - 1)),
    ),
    (
        "the block lost where a piece has more",
        Wrong::Piece(|kept, piece| {
            laying(kept, piece, |_, taken| taken.start >= BLOCK.start && taken.end <= BLOCK.end)
        }),
    ),
    (
        "the block lost where a piece has not all of it",
        Wrong::Piece(|kept, piece| {
            laying(kept, piece, |_, taken| taken.start <= BLOCK.start && taken.end >= BLOCK.end)
        }),
    ),
    (
        "the rest of the block cleared",
        Wrong::Piece(|kept, piece| {
            let right = Model.receive_piece(kept, piece);
            let end = right.received.taken;
            match right.number() == 0 && BLOCK.contains(&end) && !piece.is_empty() {
                true => with(right, |received| received.block[end - BLOCK.start..].fill(0)),
                false => right,
            }
        }),
    ),
    ("an end for fewer bytes", Wrong::End(|kept| Model.receive_end(Received { taken: kept.taken.max(COPY), ..kept }))),
    (
        "an end for one byte less",
        Wrong::End(|kept| match kept.taken {
            taken if taken == COPY - 1 => Model.receive_end(Received { taken: COPY, ..kept }),
            _ => Model.receive_end(kept),
        }),
    ),
    ("an end for more bytes", Wrong::End(|kept| Model.receive_end(Received { taken: kept.taken.min(COPY), ..kept }))),
    (
        "the block tested before the count",
        Wrong::End(|kept| match Model.receive_end(Received { taken: COPY, ..kept }) {
            answer if answer.number() > 1 => answer,
            _ => Model.receive_end(kept),
        }),
    ),
    (
        "the present record of the older area",
        Wrong::End(|kept| match Model.receive_end(kept) {
            answer if answer.a_whole && answer.b_whole => CopyAnswer { present: 3 - answer.present, ..answer },
            answer => answer,
        }),
    ),
    (
        "no present record where the later area is torn",
        Wrong::End(|kept| {
            let answer = Model.receive_end(kept);
            let later = Block::from(answer.block).later_entry();
            match later.is_some_and(|area| ![answer.a_whole, answer.b_whole][area]) {
                true => CopyAnswer { present: 0, ..answer },
                false => answer,
            }
        }),
    ),
    (
        "an unused entry whole",
        Wrong::End(|kept| match Model.receive_end(kept) {
            answer if answer.number() == 0 => {
                let BlockFields { a, b, .. } = answer.block;
                CopyAnswer { a_whole: a.checksum == kept.a, b_whole: b.checksum == kept.b, ..answer }
            }
            answer => answer,
        }),
    ),
    (
        "half of a checksum compared",
        Wrong::End(|kept| {
            let BlockFields { a, b, .. } = Block::fields(&kept.block).into();
            let half = |own: u32, sum: u32| if own as u16 == sum as u16 { own } else { sum };
            Model.receive_end(Received { a: half(a.checksum, kept.a), b: half(b.checksum, kept.b), ..kept })
        }),
    ),
    (
        "a refused block with its fields",
        Wrong::End(|kept| match Model.receive_end(kept) {
            answer if answer.number() > 1 => CopyAnswer { block: Block::fields(&kept.block).into(), ..answer },
            answer => answer,
        }),
    ),
    (
        "a refused block with whole areas",
        Wrong::End(|kept| match Model.receive_end(kept) {
            answer if answer.number() > 1 => {
                let BlockFields { a, b, .. } = Block::fields(&kept.block).into();
                CopyAnswer { a_whole: a.checksum == kept.a, b_whole: b.checksum == kept.b, ..answer }
            }
            answer => answer,
        }),
    ),
];

/// Where an area begins in a copy.
fn from(area: usize) -> usize {
    AREA_OFFSET[area]
}

/// What of a piece still fits.
fn part(kept: Received, piece: &[u8]) -> &[u8] {
    &piece[..piece.len().min(COPY.saturating_sub(kept.taken))]
}

/// The right answer with something else kept.
fn with(right: ReceiveAnswer, change: impl FnOnce(&mut Received)) -> ReceiveAnswer {
    let mut answer = right;
    if answer.number() == 0 {
        change(&mut answer.received);
    }
    answer
}

/// The right answer; of a piece that is refused, with something else kept.
fn refused(kept: Received, piece: &[u8], change: impl FnOnce(&mut Received)) -> ReceiveAnswer {
    let mut answer = Model.receive_piece(kept, piece);
    if answer.number() != 0 {
        change(&mut answer.received);
    }
    answer
}

/// 1 also where the piece is such a one.
fn refusing(kept: Received, piece: &[u8], such: fn(Received, &[u8]) -> bool) -> ReceiveAnswer {
    match Model.receive_piece(kept, piece) {
        right if right.number() == 0 && such(kept, piece) => {
            ReceiveAnswer { refusal: Refused::numbered(1), received: kept }
        }
        right => right,
    }
}

/// A piece taken by another test, where the right one refuses it: what is of the copy as it should be, and all of it counted.
fn counting(kept: Received, piece: &[u8], enough: fn(usize, usize) -> bool) -> ReceiveAnswer {
    let right = Model.receive_piece(kept, piece);
    if right.number() == 0 || !enough(kept.taken, piece.len()) {
        return right;
    }
    let taken = kept.taken.wrapping_add(piece.len());
    let received = Received { taken, ..Model.receive_piece(kept, part(kept, piece)).received };
    ReceiveAnswer { refusal: Refused::default(), received }
}

/// The checksums continued over other bytes of the areas than the right ones. Told are the block before the piece, and after it.
fn summed(kept: Received, piece: &[u8], bytes: fn(&BlockBytes, &BlockBytes, usize) -> Range<usize>) -> ReceiveAnswer {
    with(Model.receive_piece(kept, piece), |received| {
        let [a, b] = [(0, kept.a), (1, kept.b)].map(|(area, before)| {
            let taken = bytes(&kept.block, &received.block, area);
            let own = (kept.taken..).zip(piece).filter(|(place, _)| taken.contains(place));
            own.fold(before, |sum, (_, &byte)| crc32_continued(sum, &[byte]))
        });
        (received.a, received.b) = (a, b);
    })
}

/// The block's bytes laid in only where they are such ones: asked are a byte's place in the copy and what the piece has of it.
fn laying(kept: Received, piece: &[u8], such: fn(usize, &Range<usize>) -> bool) -> ReceiveAnswer {
    with(Model.receive_piece(kept, piece), |received| {
        let taken = kept.taken..received.taken;
        for place in BLOCK.filter(|place| !such(*place, &taken)) {
            received.block[place - BLOCK.start] = kept.block[place - BLOCK.start];
        }
    })
}

fn wrong() -> Option<&'static Wrong> {
    match chosen() {
        Some(super::Wrong::Pieces(wrong)) => Some(wrong),
        _ => None,
    }
}

/// The state before the first piece, as the chosen wrong answer has it.
pub fn told_received() -> Received {
    match wrong() {
        Some(Wrong::Begin(call)) => call(),
        _ => Model.receive_begin(),
    }
}

/// A piece taken.
pub fn told_piece(kept: Received, piece: &[u8]) -> ReceiveAnswer {
    match wrong() {
        Some(Wrong::Piece(call)) => call(kept, piece),
        _ => Model.receive_piece(kept, piece),
    }
}

/// The end.
pub fn told_end(kept: Received) -> CopyAnswer {
    match wrong() {
        Some(Wrong::End(call)) => call(kept),
        _ => Model.receive_end(kept),
    }
}
