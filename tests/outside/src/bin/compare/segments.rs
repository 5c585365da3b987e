//! The segments of a record from a position on, in tables of all sizes.

use outside::interface::{Device, SegmentFields};
use outside::lent::Lent;
use outside::model::record::MAX_SEGMENTS;
use outside::rng::Rng;
use outside::sample::numbers::{break_device, device};
use outside::sample::records::{all_segments, any_record, encode, head, record, segment_count, segments_in};

use crate::heads::note_marked;
use crate::run::Run;

/// Kind, start, length.
const NUMBERS: usize = 3;
const CALL: &str = "record_segments";

pub fn case(run: &mut Run, rng: &mut Rng, number: u64) {
    let mut device = device(rng);
    if number.is_multiple_of(8) {
        walk(run, rng, &device);
    }
    let record = if rng.coin() {
        let count = segment_count(rng);
        record(rng, &device, count)
    } else {
        any_record(rng, &device)
    };
    while rng.once_in(8) {
        break_device(rng, &mut device);
    }
    let record = Lent::holding(rng, &record);
    let count = segments_in(record.part()) as u64;
    for position in positions(rng, count) {
        for room in rooms(rng, count.saturating_sub(position) as usize) {
            hand_on(run, rng, &device, &record, position, room);
        }
    }
}

/// The first position, one in the middle, the last, those at the end and past it, and some whose place in the record is
/// inside it where a sum or a product wraps.
fn positions(rng: &mut Rng, count: u64) -> [u64; 10] {
    let inside = rng.below(count.max(1));
    let random = rng.next() >> rng.below(64);
    let wraps = (rng.within(1, 3) << 62) + inside;
    let narrow = (1 << 32) + inside;
    [0, count / 2, inside, count.saturating_sub(1), count, count + 1, wraps, narrow, random, u64::MAX]
}

/// How many numbers a table has: few, about as many as are needed for all that are left, or any.
fn rooms(rng: &mut Rng, left: usize) -> [usize; 13] {
    let all = NUMBERS * left;
    let random = rng.index(NUMBERS * MAX_SEGMENTS + 10);
    let some = rng.index(all + 1);
    [0, 1, 2, 3, 4, 5, 6, all.saturating_sub(1), all, all + 1, all + 3, some, random]
}

/// The numbers of the segments that the library handed on, none where it refused. The table has room for so many numbers.
fn hand_on(run: &mut Run, rng: &mut Rng, device: &Device, record: &Lent<u8>, position: u64, room: usize) -> Vec<u64> {
    let lent = [Lent::random(rng, room)];
    let before = lent[0].part().to_vec();
    let outcome = run.both(CALL, &[record], [], lent, |api, [], [table]| {
        api.record_segments(*device, record.part(), position, table.part_mut())
    });
    let [table] = &outcome.library.1;
    if outcome.number() != 0 {
        if room < NUMBERS {
            run.reached(match outcome.number() {
                1 => "record_segments, too little room",
                _ => "record_segments, a refused record in too little room",
            });
        }
        return Vec::new();
    }
    let (count, handed) = (segments_in(record.part()) as u64, outcome.answer.count);
    let left = count.saturating_sub(position);
    run.require(CALL, handed == left.min((room / NUMBERS) as u64), "another count than is left and has room");
    let (numbers, rest) = table.part().split_at(room.min(NUMBERS * handed as usize));
    run.require(CALL, rest == &before[numbers.len()..], "numbers past the last segment changed");
    run.reached(match handed {
        0 if position > count => "record_segments, none left past the end",
        0 => "record_segments, none left at the end",
        _ if handed < left => "record_segments, fewer than are left",
        _ => "record_segments, all that are left",
    });
    if handed == 0 && room < NUMBERS {
        run.reached("record_segments, none left and no room");
    }
    numbers.to_vec()
}

/// All of 409 segments: by one call, by chunks, and one by one.
fn walk(run: &mut Run, rng: &mut Rng, device: &Device) {
    let bytes = encode(head(rng), &all_segments(rng, device));
    let record = Lent::holding(rng, &bytes);
    let all = hand_on(run, rng, device, &record, 0, NUMBERS * MAX_SEGMENTS);
    run.require(CALL, all.len() == NUMBERS * MAX_SEGMENTS, "not all of 409 segments by one call");

    let mut single = Vec::new();
    for position in 0..MAX_SEGMENTS as u64 {
        let outcome = run.ask("record_segment", &[&record], |api| api.record_segment(*device, record.part(), position));
        let SegmentFields { kind, start, sectors } = outcome.answer.segment;
        single.extend([u64::from(kind), start, sectors]);
    }
    run.require(CALL, all == single, "one call and one by one differ");

    let random = rng.within(1, MAX_SEGMENTS as u64) as usize;
    let chunk = rng.one_of(&[1, 2, 3, 7, 64, 100, 204, 205, 408, 409, 410, random]);
    let mut chunks = Vec::new();
    loop {
        // A table that has one or two numbers over holds no more.
        let room = NUMBERS * chunk + rng.index(NUMBERS);
        let position = (chunks.len() / NUMBERS) as u64;
        let part = hand_on(run, rng, device, &record, position, room);
        if part.is_empty() {
            break;
        }
        chunks.extend(part);
    }
    run.require(CALL, all == chunks, "one call and chunks differ");
    run.reached("record_segments, a walk over 409 by chunks");
    note_marked(run, &bytes, "record_segments, a walk over 409 after a head of kind 17");
}
