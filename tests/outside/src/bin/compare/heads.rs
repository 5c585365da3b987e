//! Heads of both kinds: begun, moved up and back, given another mark; and records whose head is none, by every call.

use outside::interface::{as_runs, CountAnswer, Device, HeadAnswer, LengthAnswer, Refused, TotalAnswer};
use outside::lent::Lent;
use outside::model::layout::RECORD_LIMIT;
use outside::model::record::{Head, Segment, HEAD_BYTES, MAX_SEGMENTS, SEGMENT_BYTES};
use outside::moves::Move;
use outside::rng::Rng;
use outside::sample::heads::{of_shape, SHAPES};
use outside::sample::numbers::{break_device, identity};
use outside::sample::records::{
    all_segments, block_size, break_block_size, encode, low_water, segment_count, segments,
};

use crate::clashes::by_every_call;
use crate::records::put;
use crate::run::{Outcome, Run};

/// A mark, or none.
type Mark = fn(&mut Rng) -> Option<u32>;

const HEADS: &[(&str, Mark)] = &[
    ("a head of kind 16", |_| None),
    ("a head of kind 17 with the mark 0", |_| Some(0)),
    ("a head of kind 17 with the mark 1", |_| Some(1)),
    ("a head of kind 17 with the mark 2^32 - 1", |_| Some(u32::MAX)),
    ("a head of kind 17 with a mark whose low half is 0", |rng| Some((rng.next() as u32 >> 16).max(1) << 16)),
    ("a head of kind 17 with any mark but 0", |rng| Some(low_water(rng).max(2))),
];

pub fn case(run: &mut Run, rng: &mut Rng, number: u64) {
    let (name, mark) = HEADS[number as usize % HEADS.len()];
    let identity = identity(rng);
    let device = identity.device;
    let head = Head { block_size: block_size(rng), low_water: mark(rng) };
    begun(run, rng, head);
    let segments = some_segments(rng, &device);
    accepted(run, rng, device, head, &segments);
    run.reached(name);
    faulty(run, rng, device, head);

    let (name, shape) = SHAPES[number as usize / HEADS.len() % SHAPES.len()];
    let record = of_shape(rng, &device, shape);
    by_every_call(run, rng, &identity, &record, Refused::numbered(17));
    put(run, rng, &record);
    run.reached(name);
}

/// As many as a record can have, or any number.
fn some_segments(rng: &mut Rng, device: &Device) -> Vec<Segment> {
    if rng.once_in(4) {
        return all_segments(rng, device);
    }
    let count = segment_count(rng);
    segments(rng, device, count)
}

/// A record begun in a buffer.
pub fn begin(run: &mut Run, head: Head, lent: [Lent<u8>; 1]) -> Outcome<Refused, 1, 0> {
    let Head { block_size, low_water } = head;
    match low_water {
        None => {
            run.both("record_begin", &[], lent, [], |api, [buffer], []| api.record_begin(buffer.part_mut(), block_size))
        }
        Some(mark) => run.both("record_begin_marked", &[], lent, [], |api, [buffer], []| {
            api.record_begin_marked(buffer.part_mut(), block_size, mark)
        }),
    }
}

/// Begun in too little room and in enough, with a block size that is allowed and with one that is not; a segment is then put after it.
fn begun(run: &mut Run, rng: &mut Rng, head: Head) {
    let broken = Head { block_size: break_block_size(rng), ..head };
    let random = rng.index(100);
    for room in [0, 7, 8, 9, 11, 12, 13, random] {
        for (head, allowed) in [(head, true), (broken, false)] {
            let lent = [Lent::random(rng, room)];
            let before = lent[0].part().to_vec();
            let outcome = begin(run, head, lent);
            let [left] = &outcome.library.0;
            let enough = room >= head.length();
            let number = if enough { 17 * u64::from(!allowed) } else { 1 };
            run.require("begin", outcome.number() == number, &format!("{head:?} in {room} bytes: not {number}"));
            if outcome.number() == 0 && enough {
                let rest = &before[head.length()..];
                let same = left.part() == [&head.item(), rest].concat();
                run.require("begin", same, "another head, or bytes past it changed");
                put(run, rng, left.part());
            }
            if head.low_water.is_some() && !enough {
                if !allowed {
                    run.reached("record_begin_marked, 1 and 17 both apply");
                } else if room >= HEAD_BYTES {
                    run.reached("record_begin_marked, 1 where a head of kind 16 has room");
                }
            }
        }
    }
}

/// One move into a lent buffer.
pub fn ask_move(
    run: &mut Run,
    device: Device,
    record: &Lent<u8>,
    to: Move,
    lent: [Lent<u8>; 1],
) -> Outcome<LengthAnswer, 1, 0> {
    run.both(to.call(), &[record], lent, [], |api, [changed], []| {
        to.ask(api, device, record.part(), changed.part_mut())
    })
}

/// Counts a case for a record that begins with a head of kind 17.
pub fn note_marked(run: &mut Run, record: &[u8], case: &'static str) {
    if Head::read(record).is_ok_and(|head| head.low_water.is_some()) {
        run.reached(case);
    }
}

/// The head that a move gives, or its number where it is refused.
fn after(head: Head, to: Move) -> Result<Head, u64> {
    let Head { block_size, low_water } = head;
    match (to, low_water) {
        (Move::Up, _) => Ok(Head::marked(block_size, low_water.unwrap_or(0))),
        (Move::Back, None | Some(0)) => Ok(Head::plain(block_size)),
        (Move::Back, Some(_)) => Err(24),
        (Move::Mark(_), None) => Err(17),
        (Move::Mark(mark), Some(_)) => Ok(Head::marked(block_size, mark)),
    }
}

/// A record that is accepted, through every move into buffers of every size.
fn accepted(run: &mut Run, rng: &mut Rng, device: Device, head: Head, segments: &[Segment]) {
    let bytes = encode(head, segments);
    let record = Lent::holding(rng, &bytes);
    let said = run.ask("record_head", &[&record], |api| api.record_head(device, record.part())).answer;
    let expected = HeadAnswer {
        refusal: Refused::default(),
        kind: if head.low_water.is_some() { 17 } else { 16 },
        block_size: head.block_size,
        low_water: head.low_water.unwrap_or(0),
        segments: segments.len() as u64,
    };
    run.require("record_head", said == expected, &format!("says {said:?} of {head:?}"));
    if segments.len() == MAX_SEGMENTS {
        run.reached(match head.low_water {
            None => "409 segments after a head of kind 16",
            Some(_) => "409 segments after a head of kind 17",
        });
    }
    let any = low_water(rng);
    let mark = rng.one_of(&[any, any, 0, head.low_water.unwrap_or(1)]);
    for to in [Move::Up, Move::Back, Move::Mark(mark)] {
        let wanted = after(head, to).map(|head| encode(head, segments));
        let needed = wanted.as_ref().map_or(record.part().len(), Vec::len);
        let random = rng.index(2 * RECORD_LIMIT);
        let rooms = [0, 1, needed - 1, needed, needed + 1, bytes.len() - 4, bytes.len(), bytes.len() + 4, random];
        for room in rooms {
            one_move(run, rng, device, &record, to, room, &wanted);
            note(run, head, segments.len(), to, room, needed);
        }
        if let Ok(wanted) = wanted {
            same_room(run, rng, device, [&bytes, &wanted]);
        }
    }
    there_and_back(run, rng, device, head, &bytes);
}

/// One move into a buffer of that size: the record that is wanted, and the bytes past it as they were; or the number, before 1 for
/// too little room.
fn one_move(
    run: &mut Run,
    rng: &mut Rng,
    device: Device,
    record: &Lent<u8>,
    to: Move,
    room: usize,
    wanted: &Result<Vec<u8>, u64>,
) {
    let lent = [Lent::random(rng, room)];
    let before = lent[0].part().to_vec();
    let outcome = ask_move(run, device, record, to, lent);
    let changed = outcome.library.0[0].part();
    let (number, length) = (outcome.number(), outcome.answer.length as usize);
    let right = match wanted {
        Err(own) => number == *own,
        Ok(wanted) if room < wanted.len() => number == 1,
        Ok(wanted) => {
            let rest = &before[wanted.len()..];
            (number, length) == (0, wanted.len()) && changed == [wanted, rest].concat()
        }
    };
    run.require(to.call(), right, &format!("{to:?} into {room} bytes: {number}, {length} bytes, or another record"));
}

/// Counts what was reached by a move of a record that is accepted.
fn note(run: &mut Run, head: Head, count: usize, to: Move, room: usize, needed: usize) {
    let (marked, full) = (head.low_water.is_some(), count == MAX_SEGMENTS);
    let enough = room >= needed;
    let mut reached = |condition: bool, name| {
        if condition {
            run.reached(name);
        }
    };
    match to {
        Move::Up => {
            reached(enough && !marked, "head_up, from kind 16");
            reached(enough && marked, "head_up, from kind 17: the same record");
            reached(!enough && !marked, "head_up, too little room, from kind 16");
            reached(!enough && marked, "head_up, too little room, from kind 17");
            reached(!enough && room + 4 == needed && !marked, "head_up, room for the record as it was alone");
            reached(room == needed, "head_up, exact room");
            reached(room > needed, "head_up, more room");
            reached(enough && full && !marked, "head_up, 409 segments from kind 16");
        }
        Move::Back if head.has_mark() => {
            reached(enough, "head_back, 24 in enough room");
            reached(room == 0, "head_back, 24 before 1 for too little room");
        }
        Move::Back => {
            reached(enough && marked, "head_back, from kind 17 with the mark 0");
            reached(enough && !marked, "head_back, from kind 16: the same record");
            reached(!enough && !marked, "head_back, too little room, from kind 16");
            reached(!enough && marked, "head_back, too little room, from kind 17");
            reached(room == needed, "head_back, exact room");
            reached(room > needed, "head_back, more room");
            reached(enough && full && marked, "head_back, 409 segments from kind 17");
        }
        Move::Mark(mark) if marked => {
            let old = head.low_water;
            reached(enough, "head_mark, from kind 17");
            reached(enough && old == Some(mark), "head_mark, the mark that it had");
            reached(enough && mark == 0 && old != Some(0), "head_mark, 0 for another mark");
            reached(!enough, "head_mark, too little room, from kind 17");
            reached(room == needed, "head_mark, exact room");
            reached(room > needed, "head_mark, more room");
        }
        Move::Mark(_) => {
            reached(enough, "head_mark, 17 for a head of kind 16");
            reached(room == 0, "head_mark, 17 for a head of kind 16 before 1 for too little room");
        }
    }
}

/// The record with another head, by the library.
pub fn moved(run: &mut Run, rng: &mut Rng, device: Device, record: &[u8], to: Move) -> Option<Vec<u8>> {
    let record = Lent::holding(rng, record);
    let lent = [Lent::random(rng, RECORD_LIMIT)];
    let outcome = ask_move(run, device, &record, to, lent);
    let changed = outcome.library.0[0].part().get(..outcome.answer.length as usize)?;
    (outcome.number() == 0).then(|| changed.to_vec())
}

/// A way there and back again, which gives the same bytes.
fn there_and_back(run: &mut Run, rng: &mut Rng, device: Device, head: Head, record: &[u8]) {
    let other = low_water(rng);
    let (there, back, name) = match head.low_water {
        None => (Move::Up, Move::Back, "up and back: the same bytes"),
        Some(0) => (Move::Back, Move::Up, "back and up: the same bytes"),
        Some(mark) => (Move::Mark(other), Move::Mark(mark), "the mark set and set again: the same bytes"),
    };
    let again = moved(run, rng, device, record, there).and_then(|record| moved(run, rng, device, &record, back));
    run.require(name, again.as_deref() == Some(record), "other bytes");
    run.reached(name);
}

/// Two records that differ in their heads alone have the same segments and free room, and an allocation from either is the same.
fn same_room(run: &mut Run, rng: &mut Rng, device: Device, records: [&[u8]; 2]) {
    let [first, second] = records.map(|record| room_of(run, rng, device, record));
    run.require("free room", first == second, "another after a move");
    run.reached("free room and segments after a move");

    let sectors = 1 + (rng.next() >> rng.within(32, 63));
    let [first, second] = records.map(|record| {
        let input = Lent::holding(rng, record);
        let lent = [Lent::random(rng, RECORD_LIMIT)];
        let outcome = run.both("allocate", &[&input], lent, [], |api, [changed], []| {
            api.allocate(device, input.part(), 2, sectors, changed.part_mut())
        });
        let (answer, [changed]) = (outcome.answer, &outcome.library.0);
        let new = changed.part().get(record.len()..answer.length as usize);
        (answer.refusal, answer.start, new.map(<[u8]>::to_vec))
    });
    run.require("allocate", first == second, "another after a move");
    if first.2.is_some_and(|new| new.len() == SEGMENT_BYTES) {
        run.reached("an allocation after a move");
    }
}

/// The free sectors, the free runs and the segments of a record, by the library.
fn room_of(
    run: &mut Run,
    rng: &mut Rng,
    device: Device,
    record: &[u8],
) -> (TotalAnswer, CountAnswer, Vec<u64>, CountAnswer, Vec<u64>) {
    let record = Lent::holding(rng, record);
    let total = run.ask("free_total", &[&record], |api| api.free_total(device, record.part())).answer;
    let lent = [Lent::random(rng, 2 * (MAX_SEGMENTS + 1))];
    let runs = run.both("free_runs", &[&record], [], lent, |api, [], [table]| {
        api.free_runs(device, record.part(), as_runs(table.part_mut()))
    });
    let table = first_numbers(&runs.library.1[0], 2 * runs.answer.count);
    let lent = [Lent::random(rng, 3 * MAX_SEGMENTS)];
    let segments = run.both("record_segments", &[&record], [], lent, |api, [], [table]| {
        api.record_segments(device, record.part(), 0, table.part_mut())
    });
    let list = first_numbers(&segments.library.1[0], 3 * segments.answer.count);
    (total, runs.answer, table, segments.answer, list)
}

fn first_numbers(table: &Lent<u64>, count: u64) -> Vec<u64> {
    table.part().iter().take(count as usize).copied().collect()
}

/// A record with a fault that is tested before what a move tests of its own, and in too little room or enough.
fn faulty(run: &mut Run, rng: &mut Rng, mut device: Device, head: Head) {
    let any = rng.index(400);
    let count = rng.one_of(&[0, 1, 2, any]);
    let mut segments = segments(rng, &device, count);
    let fault = rng.below(5);
    if fault == 3 {
        segments.push(Segment { kind: 1, start: device.data_start(), length: 0 });
    }
    if fault == 4 {
        // Two that are equal; others may clash with them.
        let segment = Segment { kind: 3, start: device.data_end() - 1, length: 1 };
        segments.extend([segment, segment]);
    }
    let mut record = encode(head, &segments);
    let expected = match fault {
        0 => {
            break_device(rng, &mut device);
            device.check().err().map_or(0, |refusal| u64::from(refusal.number()))
        }
        1 => {
            record.resize(RECORD_LIMIT + 1 + rng.index(40), 0);
            15
        }
        2 => {
            let more = 1 + rng.index(SEGMENT_BYTES - 1);
            record.extend(rng.bytes(more));
            17
        }
        3 => 18,
        _ => 19,
    };
    let record = Lent::holding(rng, &record);
    let said = run.ask("record_head", &[&record], |api| api.record_head(device, record.part()));
    run.require("record_head", said.number() == expected, &format!("not {expected}"));
    for to in [Move::Up, Move::Back, Move::Mark(low_water(rng))] {
        let room = rng.one_of(&[0, 2 * RECORD_LIMIT]);
        let lent = [Lent::random(rng, room)];
        let outcome = ask_move(run, device, &record, to, lent);
        run.require(to.call(), outcome.number() == expected, &format!("not {expected}, which is tested first"));
        match (after(head, to), expected) {
            (Err(24), 4 | 7 | 8) => run.reached("head_back, 4, 7 or 8 before 24"),
            (Err(24), 15) => run.reached("head_back, 15 before 24"),
            (Err(24), 17) => run.reached("head_back, 17 before 24"),
            (Err(24), 18) => run.reached("head_back, 18 before 24"),
            (Err(17), 18) => run.reached("head_mark, 18 before 17 for a head of kind 16"),
            _ => {}
        }
    }
}
