//! Heads that are read, moved, begun or counted otherwise than they have to be.

use super::{chosen, told};
use crate::interface::{
    AllocationAnswer, Answer, Device, HeadAnswer, Interface, LengthAnswer, Refusable, Refused, SegmentFields,
};
use crate::model::block::u32_at;
use crate::model::record::{Head, HEAD_BYTES, MARKED_HEAD_BYTES, MARKED_KIND, MAX_SEGMENTS, PLAIN_KIND, SEGMENT_BYTES};
use crate::model::Model;
use crate::moves::Move;
use crate::sample::records::{put_u16, segments_in};

/// What a call is asked to write: a record with another head.
pub struct Asked<'a> {
    pub to: Move,
    pub device: Device,
    pub record: &'a [u8],
}

pub enum Wrong {
    /// The record that every call takes the lent one for.
    Read(fn(&[u8]) -> Vec<u8>),
    /// What is said of the head of a record, from the right answer.
    Head(fn(&[u8], HeadAnswer) -> HeadAnswer),
    /// A call in place of the right one.
    Move(fn(&Asked, &mut [u8]) -> LengthAnswer),
    Begin(fn(&mut [u8], u32, u32) -> Refused),
    Put(fn(&mut [u8], u64, SegmentFields) -> LengthAnswer),
    /// So many segments are the most with a head of kind 17.
    Most(usize),
}

pub const WRONG: &[(&str, Wrong)] = &[
    ("the mark lost on the way back", Wrong::Move(|asked, changed| losing(asked, changed, |_| true))),
    ("24 for marks below 2^16 alone", Wrong::Move(|asked, changed| losing(asked, changed, |mark| mark >= 1 << 16))),
    ("24 for the low half of the mark", Wrong::Move(|asked, changed| losing(asked, changed, |mark| mark as u16 == 0))),
    ("24 for the low byte of the mark", Wrong::Move(|asked, changed| losing(asked, changed, |mark| mark as u8 == 0))),
    ("24 for a mark with a sign", Wrong::Move(|asked, changed| losing(asked, changed, |mark| mark as i32 <= 0))),
    ("24 for a mark past 1 alone", Wrong::Move(|asked, changed| losing(asked, changed, |mark| mark == 1))),
    (
        "24 for kind 16",
        Wrong::Move(|asked, changed| refusing(asked, changed, 24, Move::Back, |head| head.kind() == 16)),
    ),
    (
        "24 for kind 17 with the mark 0",
        Wrong::Move(|asked, changed| refusing(asked, changed, 24, Move::Back, |head| head.low_water == Some(0))),
    ),
    ("24 on the way up", Wrong::Move(|asked, changed| refusing(asked, changed, 24, Move::Up, |head| head.has_mark()))),
    (
        "17 on the way up for kind 17",
        Wrong::Move(|asked, changed| refusing(asked, changed, 17, Move::Up, |head| head.kind() == 17)),
    ),
    (
        "17 on the way back for kind 16",
        Wrong::Move(|asked, changed| refusing(asked, changed, 17, Move::Back, |head| head.kind() == 16)),
    ),
    (
        "1 tested before 24",
        Wrong::Move(|asked, changed| {
            let short = changed.len() < asked.record.len().saturating_sub(4);
            instead(asked, changed, &[24], 1, |_| short)
        }),
    ),
    (
        "1 tested before 17 for kind 16",
        Wrong::Move(|asked, changed| {
            let short = changed.len() < asked.record.len();
            instead(asked, changed, &[17], 1, |asked| short && asked.has_none() && asked.is_accepted())
        }),
    ),
    (
        "24 tested before the segments",
        Wrong::Move(|asked, changed| instead(asked, changed, &[18, 19], 24, |asked| asked.loses())),
    ),
    (
        "24 tested before the items",
        Wrong::Move(|asked, changed| instead(asked, changed, &[17], 24, |asked| asked.loses())),
    ),
    (
        "24 tested before the length",
        Wrong::Move(|asked, changed| instead(asked, changed, &[15], 24, |asked| asked.loses())),
    ),
    (
        "24 tested before the device numbers",
        Wrong::Move(|asked, changed| instead(asked, changed, &[4, 7, 8], 24, |asked| asked.loses())),
    ),
    (
        "17 for kind 16 tested before the segments",
        Wrong::Move(|asked, changed| instead(asked, changed, &[18, 19], 17, |asked| asked.has_none())),
    ),
    (
        "the block size for a mark on the way up",
        Wrong::Move(|asked, changed| {
            after(asked, changed, |asked| asked.gets_one(), |_, _, changed| changed.copy_within(4..8, 8))
        }),
    ),
    (
        "no mark written on the way up",
        Wrong::Move(|asked, changed| {
            after(
                asked,
                changed,
                |asked| asked.gets_one(),
                |_, before, changed| changed[8..12].copy_from_slice(&before[8..12]),
            )
        }),
    ),
    (
        "the mark reset on the way up",
        Wrong::Move(|asked, changed| {
            after(asked, changed, |asked| asked.to == Move::Up, |_, _, changed| changed[8..12].fill(0))
        }),
    ),
    (
        "the old mark kept where one is set",
        Wrong::Move(|asked, changed| {
            after(
                asked,
                changed,
                |asked| asked.sets(),
                |asked, _, changed| changed[8..12].copy_from_slice(&asked.record[8..12]),
            )
        }),
    ),
    (
        "two bytes of the mark set",
        Wrong::Move(|asked, changed| {
            after(
                asked,
                changed,
                |asked| asked.sets(),
                |asked, _, changed| changed[10..12].copy_from_slice(&asked.record[10..12]),
            )
        }),
    ),
    (
        "a mark of 0 not set",
        Wrong::Move(|asked, changed| instead(asked, changed, &[0], 17, |asked| asked.to == Move::Mark(0))),
    ),
    (
        "a mark set on kind 16",
        Wrong::Move(|asked, changed| match asked.right(changed) {
            answer if answer.number() == 17 && asked.has_none() && asked.is_accepted() => {
                let mut up = vec![0; asked.record.len() + 4];
                Model.head_up(asked.device, asked.record, &mut up);
                Asked { record: &up, ..*asked }.right(changed)
            }
            answer => answer,
        }),
    ),
    (
        "the block size lost",
        Wrong::Move(|asked, changed| after(asked, changed, |_| true, |_, _, changed| changed[4..8].fill(0))),
    ),
    (
        "the order of segments turned round",
        Wrong::Move(|asked, changed| {
            after(
                asked,
                changed,
                |_| true,
                |asked, _, changed| {
                    let head = changed.len() - SEGMENT_BYTES * segments_in(asked.record);
                    let turned: Vec<u8> = changed[head..].rchunks(SEGMENT_BYTES).flatten().copied().collect();
                    changed[head..].copy_from_slice(&turned);
                },
            )
        }),
    ),
    (
        "the last segment left out",
        Wrong::Move(|asked, changed| {
            let mut answer = asked.right(changed);
            if answer.number() == 0 && segments_in(asked.record) > 0 {
                answer.length -= SEGMENT_BYTES as u64;
            }
            answer
        }),
    ),
    (
        "bytes past the record cleared",
        Wrong::Move(|asked, changed| {
            let answer = asked.right(changed);
            if answer.number() == 0 {
                changed[answer.length as usize..].fill(0);
            }
            answer
        }),
    ),
    (
        "four bytes past the record cleared on the way back",
        Wrong::Move(|asked, changed| {
            let answer = asked.right(changed);
            if answer.number() == 0 && asked.to == Move::Back {
                changed.iter_mut().skip(answer.length as usize).take(4).for_each(|byte| *byte = 0);
            }
            answer
        }),
    ),
    (
        "a refused move that writes",
        Wrong::Move(|asked, changed| {
            let answer = asked.right(changed);
            if answer.number() == 24 {
                changed.iter_mut().zip(asked.record).for_each(|(to, from)| *to = *from);
            }
            answer
        }),
    ),
    (
        "the length of the old record",
        Wrong::Move(|asked, changed| match asked.right(changed) {
            answer if answer.number() == 0 => LengthAnswer { length: asked.record.len() as u64, ..answer },
            answer => answer,
        }),
    ),
    (
        "the length beside 24",
        Wrong::Move(|asked, changed| match asked.right(changed) {
            answer if answer.number() == 24 => LengthAnswer { length: asked.record.len() as u64 - 4, ..answer },
            answer => answer,
        }),
    ),
    (
        "room for the old record wanted on the way back",
        Wrong::Move(|asked, changed| {
            let short = changed.len() < asked.record.len();
            instead(asked, changed, &[0], 1, |asked| short && asked.to == Move::Back)
        }),
    ),
    (
        "room for the old record enough on the way up",
        Wrong::Move(|asked, changed| match asked.right(changed) {
            answer if answer.number() == 1 && asked.to == Move::Up && changed.len() >= asked.record.len() => {
                LengthAnswer { length: asked.record.len() as u64 + 4, ..Default::default() }
            }
            answer => answer,
        }),
    ),
    (
        "exact room refused",
        Wrong::Move(|asked, changed| {
            let before = changed.to_vec();
            match asked.right(changed) {
                answer if answer.number() == 0 && answer.length as usize == before.len() => {
                    changed.copy_from_slice(&before);
                    numbered(1)
                }
                answer => answer,
            }
        }),
    ),
    (
        "kind 16 said of every head",
        Wrong::Head(|_, answer| match answer.kind {
            0 => answer,
            _ => HeadAnswer { kind: PLAIN_KIND, ..answer },
        }),
    ),
    (
        "a mark said of kind 16",
        Wrong::Head(|record, answer| match answer.kind {
            PLAIN_KIND if record.len() >= 12 => HeadAnswer { low_water: u32_at(record, 8), ..answer },
            _ => answer,
        }),
    ),
    ("no mark said", Wrong::Head(|_, answer| HeadAnswer { low_water: 0, ..answer })),
    (
        "the mark and the block size exchanged",
        Wrong::Head(|_, answer| match answer.kind {
            MARKED_KIND => HeadAnswer { block_size: answer.low_water, low_water: answer.block_size, ..answer },
            _ => answer,
        }),
    ),
    (
        "a head's kind beside a refusal",
        Wrong::Head(|record, answer| match answer.number() {
            0 => answer,
            _ => HeadAnswer { kind: kind(record), ..answer },
        }),
    ),
    ("408 segments the most of a record with kind 17", Wrong::Most(MAX_SEGMENTS - 1)),
    (
        "no more than 408 segments read with kind 17",
        Wrong::Read(|record| match kind(record) {
            MARKED_KIND if segments_in(record) == MAX_SEGMENTS => record[..record.len() - 1].to_vec(),
            _ => record.to_vec(),
        }),
    ),
    ("kind 17 not known", Wrong::Read(|record| with_kind(record, MARKED_KIND, MARKED_HEAD_BYTES, 18))),
    ("kind 17 taken with the length 8", Wrong::Read(|record| with_kind(record, MARKED_KIND, HEAD_BYTES, PLAIN_KIND))),
    (
        "kind 16 taken with the length 12",
        Wrong::Read(|record| with_kind(record, PLAIN_KIND, MARKED_HEAD_BYTES, MARKED_KIND)),
    ),
    ("kind 18 taken for 17", Wrong::Read(|record| with_kind(record, 18, MARKED_HEAD_BYTES, MARKED_KIND))),
    (
        "the length of a head not looked at",
        Wrong::Read(|record| {
            let length = match kind(record) {
                PLAIN_KIND => HEAD_BYTES,
                MARKED_KIND => MARKED_HEAD_BYTES,
                _ => return record.to_vec(),
            };
            let mut record = record.to_vec();
            put_u16(&mut record, 0, length as u16);
            record
        }),
    ),
    (
        "a mark that is cut off taken for 0",
        Wrong::Read(|record| {
            let mut record = record.to_vec();
            if kind(&record) == MARKED_KIND && (HEAD_BYTES..MARKED_HEAD_BYTES).contains(&record.len()) {
                record.resize(MARKED_HEAD_BYTES, 0);
            }
            record
        }),
    ),
    (
        "a second head passed over",
        Wrong::Read(|record| {
            let Ok(first) = Head::read(record) else { return record.to_vec() };
            let (mut kept, mut rest) = record.split_at(first.length());
            let mut record = kept.to_vec();
            while !rest.is_empty() {
                let head = Head::read(rest).ok();
                (kept, rest) = rest.split_at(head.map_or(SEGMENT_BYTES, |head| head.length()).min(rest.len()));
                if head.is_none() {
                    record.extend(kept);
                }
            }
            record
        }),
    ),
    (
        "the block size not tested with kind 17",
        Wrong::Read(|record| {
            let mut record = record.to_vec();
            if kind(&record) == MARKED_KIND && record.len() >= MARKED_HEAD_BYTES {
                record[4..8].copy_from_slice(&128_u32.to_le_bytes());
            }
            record
        }),
    ),
    (
        "a mark held to the limits of a block size",
        Wrong::Read(|record| match Head::read(record) {
            Ok(Head { low_water: Some(mark), .. }) if mark != 0 && Head::plain(mark).check().is_err() => vec![0],
            _ => record.to_vec(),
        }),
    ),
    ("begun with the mark 0", Wrong::Begin(|buffer, block_size, _| Model.record_begin_marked(buffer, block_size, 0))),
    (
        "begun with kind 16",
        Wrong::Begin(|buffer, block_size, low_water| {
            let refused = Model.record_begin_marked(buffer, block_size, low_water);
            if refused.number == 0 {
                put_u16(buffer, 2, PLAIN_KIND);
            }
            refused
        }),
    ),
    (
        "begun in room for kind 16",
        Wrong::Begin(|buffer, block_size, low_water| match buffer.len() {
            8..12 => Model.record_begin(buffer, block_size),
            _ => Model.record_begin_marked(buffer, block_size, low_water),
        }),
    ),
    (
        "begun: 17 before 1",
        Wrong::Begin(|buffer, block_size, low_water| match Head::plain(block_size).check() {
            Ok(()) => Model.record_begin_marked(buffer, block_size, low_water),
            Err(refusal) => refusal.into(),
        }),
    ),
    (
        "begun with more bytes than a head",
        Wrong::Begin(|buffer, block_size, low_water| {
            let refused = Model.record_begin_marked(buffer, block_size, low_water);
            if refused.number == 0 {
                buffer.iter_mut().skip(MARKED_HEAD_BYTES).take(4).for_each(|byte| *byte = 0);
            }
            refused
        }),
    ),
    (
        "put where kind 16 has it",
        Wrong::Put(|buffer, position, segment| match Head::read(buffer) {
            Ok(head) if head.kind() == MARKED_KIND => {
                let marked: Vec<u8> = buffer[..MARKED_HEAD_BYTES].to_vec();
                Head::plain(head.block_size).put(buffer);
                let answer = Model.record_put(buffer, position, segment);
                buffer[..HEAD_BYTES].copy_from_slice(&marked[..HEAD_BYTES]);
                answer
            }
            _ => Model.record_put(buffer, position, segment),
        }),
    ),
    (
        "put after a mark that is cut off",
        Wrong::Put(|buffer, position, segment| {
            if kind(buffer) == MARKED_KIND && (HEAD_BYTES..MARKED_HEAD_BYTES).contains(&buffer.len()) {
                return numbered(1);
            }
            Model.record_put(buffer, position, segment)
        }),
    ),
];

impl Asked<'_> {
    fn right(&self, changed: &mut [u8]) -> LengthAnswer {
        self.to.ask(&Model, self.device, self.record, changed)
    }

    fn is_accepted(&self) -> bool {
        Model.record_check(self.device, self.record).number == 0
    }

    /// Moving the head back would lose a mark, whatever else is wrong with the record.
    fn loses(&self) -> bool {
        self.to == Move::Back && Head::read(self.record).is_ok_and(|head| head.has_mark())
    }

    /// The head has none and is moved up.
    fn gets_one(&self) -> bool {
        self.to == Move::Up && kind(self.record) == PLAIN_KIND
    }

    fn sets(&self) -> bool {
        matches!(self.to, Move::Mark(_))
    }

    /// A mark is asked for where the head has none.
    fn has_none(&self) -> bool {
        self.sets() && kind(self.record) == PLAIN_KIND
    }
}

fn numbered(number: u8) -> LengthAnswer {
    LengthAnswer::refusing(Refused::numbered(number))
}

/// The kind of a record's first item; 0 where there is none.
fn kind(record: &[u8]) -> u16 {
    record.get(2..4).map_or(0, |kind| u16::from_le_bytes([kind[0], kind[1]]))
}

/// The record with another kind where it begins with this kind and this length.
fn with_kind(record: &[u8], old: u16, length: usize, new: u16) -> Vec<u8> {
    let begins = kind(record) == old && record.starts_with(&(length as u16).to_le_bytes());
    let mut record = record.to_vec();
    if begins {
        put_u16(&mut record, 2, new);
    }
    record
}

/// Moved back without its mark, where that is such a one, in place of 24.
fn losing(asked: &Asked, changed: &mut [u8], such: fn(u32) -> bool) -> LengthAnswer {
    let answer = asked.right(changed);
    if answer.number() != 24 || !such(u32_at(asked.record, 8)) {
        return answer;
    }
    let mut record = asked.record.to_vec();
    record[8..12].fill(0);
    Asked { record: &record, ..*asked }.right(changed)
}

/// Another number in place of these, where the call is such a one; what was lent is then as it was.
fn instead(
    asked: &Asked,
    changed: &mut [u8],
    of: &[u64],
    number: u8,
    such: impl FnOnce(&Asked) -> bool,
) -> LengthAnswer {
    let before = changed.to_vec();
    let answer = asked.right(changed);
    if of.contains(&answer.number()) && such(asked) {
        changed.copy_from_slice(&before);
        return numbered(number);
    }
    answer
}

/// A move refused, where the head is such a one and the right call is not refused.
fn refusing(asked: &Asked, changed: &mut [u8], number: u8, to: Move, such: fn(Head) -> bool) -> LengthAnswer {
    instead(asked, changed, &[0], number, |asked| asked.to == to && Head::read(asked.record).is_ok_and(such))
}

/// The right call; where it is such a one, what was written is then changed. Lent to that are the buffer as it was, and the new record.
fn after(
    asked: &Asked,
    changed: &mut [u8],
    such: fn(&Asked) -> bool,
    change: fn(&Asked, &[u8], &mut [u8]),
) -> LengthAnswer {
    let before = changed.to_vec();
    let answer = asked.right(changed);
    if answer.number() == 0 && such(asked) {
        change(asked, &before, &mut changed[..answer.length as usize]);
    }
    answer
}

fn wrong() -> Option<&'static Wrong> {
    match chosen() {
        Some(super::Wrong::Heads(wrong)) => Some(wrong),
        _ => None,
    }
}

/// A record with another head, as the chosen wrong answer has it.
pub fn told_move(to: Move, device: Device, record: &[u8], changed: &mut [u8]) -> LengthAnswer {
    told(to.call(), record, |record| {
        let asked = Asked { to, device, record };
        match wrong() {
            Some(Wrong::Move(call)) => call(&asked, changed),
            _ => asked.right(changed),
        }
    })
}

/// What is said of a head.
pub fn told_head(record: &[u8], right: HeadAnswer) -> HeadAnswer {
    match wrong() {
        Some(Wrong::Head(say)) => say(record, right),
        _ => right,
    }
}

/// A record begun with a mark.
pub fn told_begin(buffer: &mut [u8], block_size: u32, low_water: u32) -> Refused {
    match wrong() {
        Some(Wrong::Begin(call)) => call(buffer, block_size, low_water),
        _ => Model.record_begin_marked(buffer, block_size, low_water),
    }
}

/// A segment put into a record that was begun.
pub fn told_put(buffer: &mut [u8], position: u64, segment: SegmentFields) -> LengthAnswer {
    match wrong() {
        Some(Wrong::Put(call)) => call(buffer, position, segment),
        _ => Model.record_put(buffer, position, segment),
    }
}

/// An allocation, with another number of segments that are the most.
pub fn told_allocation(record: &[u8], right: impl FnOnce() -> AllocationAnswer) -> AllocationAnswer {
    match wrong() {
        Some(Wrong::Most(most)) if kind(record) == MARKED_KIND && segments_in(record) == *most => {
            AllocationAnswer::refusing(Refused::numbered(21))
        }
        _ => right(),
    }
}
