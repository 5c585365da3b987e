//! Segments that clash: every call that takes a record names the same two beside 19, and no call names any beside another number.

use outside::interface::{as_runs, Answer, Device, Refused, Time};
use outside::lent::Lent;
use outside::model::block::Identity;
use outside::model::layout::{COPY, RECORD_LIMIT};
use outside::model::record::{Head, Segment, Span, MAX_SEGMENTS, PLAIN_KIND, SEGMENT_BYTES};
use outside::model::refusal::Clash;
use outside::model::sweep;
use outside::moves::Move;
use outside::rng::Rng;
use outside::sample::clashes::{Known, SHAPES};
use outside::sample::copies::in_step;
use outside::sample::numbers::{break_device, break_nanoseconds, identity, later, not_hex, time, wrong_length};
use outside::sample::records::{break_block_size, encode, head, head_length, low_water, record, segments_in};

use crate::expected::CLASH;
use crate::heads::ask_move;
use crate::run::Run;

/// A shape of segments, by every call; then with another fault beside the clash.
pub fn case(run: &mut Run, rng: &mut Rng, number: u64) {
    let (name, shape) = SHAPES[number as usize % SHAPES.len()];
    let identity = identity(rng);
    let (segments, known) = shape(rng, &identity.device);
    let pair = pair(&segments);
    let as_made = match known {
        Known::Pair(first, second) => pair == Some(Clash { first, second }),
        Known::Clash => pair.is_some(),
        Known::NoClash => pair.is_none(),
        Known::Nothing => true,
    };
    run.require(name, as_made, &format!("made for {known:?}, but found {pair:?}"));
    run.reached(name);
    let record = encode(head(rng), &segments);
    by_every_call(run, rng, &identity, &record, expected(pair));
    if let Some(pair) = pair {
        let (faulty, number, name) = faulty(rng, &identity.device, &segments, pair);
        by_every_call(run, rng, &identity, &faulty, Refused::numbered(number));
        run.reached(name);
        lower_numbers(run, rng, &identity, &record);
    }
}

/// As many sectors as the segments of `overlaps` lie in, and how many of them there are at the most.
const SECTORS: u64 = 4;
const MOST: u32 = 4;
/// The segments that fit in those sectors.
const FITTING: u64 = SECTORS * (SECTORS + 1) / 2;
/// Every list of up to that many such segments.
pub const OVERLAPS: u64 = (FITTING.pow(MOST + 1) - 1) / (FITTING - 1);

/// Every record of a few segments in a few sectors, by its number.
pub fn overlaps(run: &mut Run, rng: &mut Rng, number: u64) {
    let identity = identity(rng);
    let (start, end) = (identity.device.data_start(), identity.device.data_end() - SECTORS);
    let any = rng.within(start, end);
    let start = rng.one_of(&[start, any, end]);
    let fitting: Vec<Segment> = (0..SECTORS)
        .flat_map(|skipped| (1..=SECTORS - skipped).map(move |length| (start + skipped, length)))
        .map(|(start, length)| Segment { kind: rng.within(1, 4) as u16, start, length })
        .collect();
    // Those with fewer segments come first.
    let (mut count, mut number) = (0, number);
    while number >= FITTING.pow(count) {
        number -= FITTING.pow(count);
        count += 1;
    }
    let segments: Vec<Segment> =
        (0..count).map(|digit| fitting[(number / FITTING.pow(digit) % FITTING) as usize]).collect();
    let pair = pair(&segments);
    let record = encode(head(rng), &segments);
    by_every_call(run, rng, &identity, &record, expected(pair));
    run.reached(match pair {
        Some(_) => "a clash: a record of all of up to four segments in four sectors",
        None => "no clash: a record of all of up to four segments in four sectors",
    });
}

/// The pair that clashes, found by sorting.
fn pair(segments: &[Segment]) -> Option<Clash> {
    let span = |segment: &Segment| Span { start: segment.start, end: segment.start + segment.length };
    sweep::clash(&segments.iter().map(span).collect::<Vec<_>>())
}

fn expected(pair: Option<Clash>) -> Refused {
    pair.map_or(Refused::default(), |Clash { first, second }| Refused {
        number: CLASH,
        first: first as u64,
        second: second as u64,
    })
}

/// The record is refused so by a call; where it is not refused, the call may have a number of its own.
fn refused(run: &mut Run, call: &'static str, answer: impl Answer, expected: Refused) {
    let same = expected.number == 0 || answer.refused() == Some(expected);
    run.require(call, same, &format!("answers {answer:?} for a record that is refused with {expected:?}"));
}

pub fn by_every_call(run: &mut Run, rng: &mut Rng, identity: &Identity, record: &[u8], expected: Refused) {
    let record = Lent::holding(rng, record);
    readings(run, rng, identity.device, &record, expected);
    free_room(run, rng, identity.device, &record, expected);
    changes(run, rng, identity.device, &record, expected);
    heads(run, rng, identity.device, &record, expected);
    let made = time(rng);
    format(run, rng, identity, made, &record, expected);
    let (copies, time) = copies(rng, identity);
    update(run, &copies, time, &record, expected);
}

/// Two copies in step, and a time later than their record's.
fn copies(rng: &mut Rng, identity: &Identity) -> ([Lent<u8>; 2], Time) {
    loop {
        let present = time(rng);
        if let Some(later) = later(rng, present) {
            let record = record(rng, &identity.device, 3);
            let copies = in_step(rng, identity, present, &record);
            return (copies.map(|copy| Lent::holding(rng, &copy)), later);
        }
    }
}

/// A position of the record, one past it, or any; whether it is past it.
fn position(rng: &mut Rng, record: &[u8]) -> (u64, bool) {
    let count = segments_in(record) as u64;
    let inside = rng.below(count.max(1));
    let position = rng.one_of(&[0, inside, inside, inside, count, u64::MAX]);
    (position, position >= count)
}

fn readings(run: &mut Run, rng: &mut Rng, device: Device, record: &Lent<u8>, expected: Refused) {
    let (inputs, bytes) = ([record], record.part());
    let clash = expected.number == CLASH;
    let answer = run.ask("record_check", &inputs, |api| api.record_check(device, bytes)).answer;
    refused(run, "record_check", answer, expected);
    run.require("record_check", answer == expected, "another number than the record has");
    let answer = run.ask("record_head", &inputs, |api| api.record_head(device, bytes)).answer;
    refused(run, "record_head", answer, expected);
    let (position, past) = position(rng, bytes);
    let answer = run.ask("record_segment", &inputs, |api| api.record_segment(device, bytes, position)).answer;
    refused(run, "record_segment", answer, expected);
    if clash && past {
        run.reached("record_segment, 19 before 22");
    }
    let room = rng.one_of(&[0, 2, 3, 12, 3 * MAX_SEGMENTS]);
    let lent = [Lent::random(rng, room)];
    let outcome = run.both("record_segments", &inputs, [], lent, |api, [], [table]| {
        api.record_segments(device, bytes, position, table.part_mut())
    });
    refused(run, "record_segments", outcome.answer, expected);
    if clash && room < 3 {
        run.reached("record_segments, 19 before 1 for too little room");
    }
}

fn free_room(run: &mut Run, rng: &mut Rng, device: Device, record: &Lent<u8>, expected: Refused) {
    let (inputs, bytes) = ([record], record.part());
    let clash = expected.number == CLASH;
    let answer = run.ask("free_total", &inputs, |api| api.free_total(device, bytes)).answer;
    refused(run, "free_total", answer, expected);
    let entries = rng.one_of(&[0, 1, MAX_SEGMENTS + 1]);
    let lent = [Lent::random(rng, 2 * entries)];
    let outcome = run.both("free_runs", &inputs, [], lent, |api, [], [table]| {
        api.free_runs(device, bytes, as_runs(table.part_mut()))
    });
    refused(run, "free_runs", outcome.answer, expected);
    if clash && entries == 0 {
        run.reached("free_runs, 19 before 1 for too little room");
    }
    let answer = run.ask("run_count", &inputs, |api| api.run_count(device, bytes)).answer;
    refused(run, "run_count", answer, expected);
    let number = rng.one_of(&[0, 1, segments_in(bytes) as u64, u64::MAX]);
    let answer = run.ask("run_at", &inputs, |api| api.run_at(device, bytes, number)).answer;
    refused(run, "run_at", answer, expected);
    let sectors = rng.one_of(&[0, 1, 100, u64::MAX]);
    let answer = run.ask("first_fit", &inputs, |api| api.first_fit(device, bytes, sectors)).answer;
    refused(run, "first_fit", answer, expected);
    if clash {
        match sectors {
            0 => run.reached("first_fit, 19 before 18 for its own count"),
            u64::MAX => run.reached("first_fit, 19 before 20"),
            _ => {}
        }
    }
}

fn changes(run: &mut Run, rng: &mut Rng, device: Device, record: &Lent<u8>, expected: Refused) {
    let (inputs, bytes) = ([record], record.part());
    let clash = expected.number == CLASH;
    let (kind, sectors) = (rng.one_of(&[1, 2, 3, 4, 0, 5]), rng.one_of(&[0, 1, 100, u64::MAX]));
    let room = rng.one_of(&[0, bytes.len(), bytes.len() + SEGMENT_BYTES, RECORD_LIMIT]);
    let lent = [Lent::random(rng, room)];
    let outcome = run.both("allocate", &inputs, lent, [], |api, [changed], []| {
        api.allocate(device, bytes, kind, sectors, changed.part_mut())
    });
    refused(run, "allocate", outcome.answer, expected);
    if clash {
        for (reached, name) in [
            (!(1..=4).contains(&kind), "allocate, 19 before 17 for its own kind"),
            (sectors == 0, "allocate, 19 before 18 for its own count"),
            (sectors == u64::MAX, "allocate, 19 before 20"),
            (segments_in(bytes) == MAX_SEGMENTS, "allocate, 19 before 21"),
            (room < bytes.len() + SEGMENT_BYTES, "allocate, 19 before 1 for too little room"),
        ] {
            if reached {
                run.reached(name);
            }
        }
    }
    let (position, past) = position(rng, bytes);
    let room = rng.one_of(&[0, bytes.len(), RECORD_LIMIT]);
    let lent = [Lent::random(rng, room)];
    let outcome = run.both("release", &inputs, lent, [], |api, [changed], []| {
        api.release(device, bytes, position, changed.part_mut())
    });
    refused(run, "release", outcome.answer, expected);
    if clash && past {
        run.reached("release, 19 before 22");
    }
    if clash && !past && room == 0 {
        run.reached("release, 19 before 1 for too little room");
    }
}

fn heads(run: &mut Run, rng: &mut Rng, device: Device, record: &Lent<u8>, expected: Refused) {
    let bytes = record.part();
    let head = Head::read(bytes);
    let clash = expected.number == CLASH;
    for to in [Move::Up, Move::Back, Move::Mark(low_water(rng))] {
        let room = rng.one_of(&[0, bytes.len(), bytes.len() + 4, RECORD_LIMIT]);
        let lent = [Lent::random(rng, room)];
        let outcome = ask_move(run, device, record, to, lent);
        refused(run, to.call(), outcome.answer, expected);
        let Ok(head) = head else { continue };
        if clash {
            for (reached, name) in [
                (to == Move::Back && head.has_mark(), "head_back, 19 before 24"),
                (
                    matches!(to, Move::Mark(_)) && head.kind() == PLAIN_KIND,
                    "head_mark, 19 before 17 for a head of kind 16",
                ),
                (to == Move::Up && room == 0, "head_up, 19 before 1 for too little room"),
                (to == Move::Back && room == 0, "head_back, 19 before 1 for too little room"),
                (matches!(to, Move::Mark(_)) && room == 0, "head_mark, 19 before 1 for too little room"),
            ] {
                if reached {
                    run.reached(name);
                }
            }
        }
    }
}

fn format(run: &mut Run, rng: &mut Rng, identity: &Identity, time: Time, record: &Lent<u8>, expected: Refused) {
    let [pool, blockdev] = [&identity.pool_uuid, &identity.device_uuid].map(|uuid| Lent::holding(rng, uuid));
    let copies = [Lent::random(rng, COPY), Lent::random(rng, COPY)];
    let outcome = run.both("format", &[&pool, &blockdev, record], copies, [], |api, [front, back], []| {
        let (front, back) = (front.part_mut(), back.part_mut());
        api.format(front, back, identity.device, pool.part(), blockdev.part(), time, record.part())
    });
    refused(run, "format", outcome.answer, expected);
}

fn update(run: &mut Run, [front, back]: &[Lent<u8>; 2], time: Time, record: &Lent<u8>, expected: Refused) {
    let inputs = [front, back, record];
    let answer =
        run.ask("update_check", &inputs, |api| api.update_check(front.part(), back.part(), time, record.part())).answer;
    refused(run, "update_check", answer, expected);
    let answer =
        run.ask("update_plan", &inputs, |api| api.update_plan(front.part(), back.part(), time, record.part())).answer;
    refused(run, "update_plan", answer, expected);
}

/// The segments that clash in a record that has another fault too, its lower number, and a name for the case.
fn faulty(rng: &mut Rng, device: &Device, segments: &[Segment], pair: Clash) -> (Vec<u8>, u8, &'static str) {
    let head = head(rng);
    let mut segments = segments.to_vec();
    let fault = rng.below(4);
    if fault == 0 {
        let mut record = encode(head, &segments);
        let length = rng.one_of(&[RECORD_LIMIT + 1, RECORD_LIMIT + 16, 2 * RECORD_LIMIT]);
        record.resize(length, 0);
        return (record, 15, "a clash beside 15");
    }
    if fault == 1 {
        let mut record = encode(head, &segments);
        let broken = break_block_size(rng);
        match rng.below(4) {
            0 => record[4..8].copy_from_slice(&broken.to_le_bytes()),
            1 => record[0] = 20,
            2 => record[2] = 1,
            _ => record.truncate(record.len() - 1),
        }
        return (record, 17, "a clash beside 17, for a head or the length");
    }
    // Another segment, which is not one of the pair.
    let mut other = rng.index(segments.len() + 1);
    if segments.len() < MAX_SEGMENTS {
        segments.insert(other, Segment { kind: 1, start: 0, length: 0 });
    } else {
        while [pair.first, pair.second, MAX_SEGMENTS].contains(&other) {
            other = rng.index(MAX_SEGMENTS);
        }
    }
    let (start, end) = (device.data_start(), device.data_end());
    let inside = rng.within(start, end - 1);
    let (start, length) = match rng.below(7) {
        0 => (inside, 0),
        1 => (start - 1, 1),
        2 => (start - 1, 2),
        3 => (end, 1),
        4 => (end - 1, 2),
        5 => (inside, u64::MAX),
        _ => (u64::MAX, 2),
    };
    segments[other] = Segment { kind: 3, start, length };
    let mut record = encode(head, &segments);
    if fault == 2 {
        return (record, 18, "a clash beside 18");
    }
    // The item's length or its kind; its place is wrong as well, so that 17, 18 and 19 all apply.
    let at = head_length(&record) + other * SEGMENT_BYTES;
    if rng.coin() {
        record[at] = rng.one_of(&[0, 8, 19, 21]);
    } else {
        record[at + 2] = rng.one_of(&[0, 5, 16, 17]);
    }
    (record, 17, "a clash beside 17 and 18")
}

/// The record that clashes, with what is tested before it refused: no pair stands beside the lower number, or beside the number of
/// an update that is tested first.
fn lower_numbers(run: &mut Run, rng: &mut Rng, identity: &Identity, record: &[u8]) {
    let record = Lent::holding(rng, record);
    let fault = rng.below(3);
    if fault == 0 {
        let mut broken = *identity;
        break_device(rng, &mut broken.device);
        let number = broken.device.check().err().map_or(0, |refusal| refusal.number());
        let refusal = Refused::numbered(number);
        readings(run, rng, broken.device, &record, refusal);
        free_room(run, rng, broken.device, &record, refusal);
        changes(run, rng, broken.device, &record, refusal);
        heads(run, rng, broken.device, &record, refusal);
        let time = time(rng);
        format(run, rng, &broken, time, &record, refusal);
        run.reached("a clash beside 4, 7 or 8");
    } else if fault == 1 {
        let (mut broken, mut time) = (*identity, time(rng));
        let (number, name) = match rng.below(2) {
            0 => {
                broken.pool_uuid[rng.index(32)] = not_hex(rng);
                (6, "format, a clash beside 6")
            }
            _ => {
                time.nanoseconds = break_nanoseconds(rng);
                (9, "format, a clash beside 9")
            }
        };
        format(run, rng, &broken, time, &record, Refused::numbered(number));
        run.reached(name);
    } else {
        let (mut copies, mut time) = copies(rng, identity);
        let (number, name) = match rng.below(4) {
            0 => {
                let short = wrong_length(rng, COPY);
                copies[rng.index(2)] = Lent::random(rng, short);
                (1, "update, a clash beside 1")
            }
            // Only one of the copies has a block.
            1 => {
                copies[rng.index(2)] = Lent::random(rng, COPY);
                (16, "update, a clash beside 16")
            }
            2 => {
                time.nanoseconds = break_nanoseconds(rng);
                (9, "update, a clash beside 9")
            }
            _ => {
                time = Time::default();
                (14, "update, a clash beside 14")
            }
        };
        update(run, &copies, time, &record, Refused::numbered(number));
        run.reached(name);
    }
}
