//! Records and their free room.

use outside::ffi::Library;
use outside::interface::{as_runs, Device, FreeRun, Interface, SegmentFields};
use outside::lent::Lent;
use outside::model;
use outside::model::layout::RECORD_LIMIT;
use outside::model::record::{is_block_size, Head, HEAD_BYTES, MARKED_HEAD_BYTES, MAX_SEGMENTS, SEGMENT_BYTES};
use outside::model::room::{free_runs, Run as ModelRun};
use outside::rng::Rng;
use outside::sample::numbers::{break_device, device};
use outside::sample::records::{
    any_record, block_size, break_block_size, head_length, record, segment_count, segments_in,
};

use crate::heads::{begin as begin_with, note_marked};
use crate::run::Run;

pub fn case(run: &mut Run, rng: &mut Rng, _: u64) {
    let mut device = device(rng);
    let record = if rng.coin() {
        let count = segment_count(rng);
        record(rng, &device, count)
    } else {
        any_record(rng, &device)
    };
    while rng.once_in(8) {
        break_device(rng, &mut device);
    }
    let record = Lent::holding(rng, &record);
    begin(run, rng);
    put(run, rng, record.part());
    read(run, rng, device, &record);
    let runs = runs(&device, record.part());
    if rng.once_in(20) {
        sectors(run, device, record.part());
    }
    allocate(run, rng, device, &record, &runs);
    release(run, rng, device, &record);
    run_table(run, rng, device, &record, &runs);
    single_runs(run, rng, device, &record, &runs);
}

/// The free runs by the independent implementation, none where the record is refused.
fn runs(device: &Device, record: &[u8]) -> Vec<ModelRun> {
    match model::record::check(device, record) {
        Ok((_, spans)) => free_runs(device, spans.as_slice()).collect(),
        Err(_) => Vec::new(),
    }
}

fn begin(run: &mut Run, rng: &mut Rng) {
    let size = if rng.coin() { block_size(rng) } else { break_block_size(rng) };
    let random = rng.index(100);
    let room = rng.one_of(&[0, 1, 7, 8, 9, random]);
    let lent = [Lent::random(rng, room)];
    begin_with(run, Head::plain(size), lent);
    if room < HEAD_BYTES && !is_block_size(size) {
        run.reached("record_begin, 1 and 17 both apply");
    }
}

/// A segment put into a buffer: that of a record, perhaps with a head that is none, of any size.
pub fn put(run: &mut Run, rng: &mut Rng, record: &[u8]) {
    let count = segments_in(record) as u64;
    let inside = rng.below(count + 1);
    let random = rng.next() >> rng.below(64);
    // A position whose place is inside where a product or a sum wraps.
    let wraps = (rng.within(1, 3) << 62) + inside;
    let most = u64::MAX / 20;
    let position =
        rng.one_of(&[inside, inside, inside, count, count + 1, 408, 409, wraps, most - 1, most, random, u64::MAX]);
    let first = (head_length(record) + SEGMENT_BYTES) as u128;
    let needed = (u128::from(position) * 20 + first).min(2 * RECORD_LIMIT as u128) as usize;
    let any = rng.index(2 * RECORD_LIMIT);
    let short = rng.index(MARKED_HEAD_BYTES + 1);
    let room = rng.one_of(&[needed, needed, needed - 1, needed + 1, record.len(), any, short]);
    let mut bytes = record.to_vec();
    bytes.resize(room, 0xa5);
    let (kind, start, sectors) = (rng.next() as u16, rng.next(), rng.next());
    let segment = SegmentFields { kind, start, sectors };
    let lent = [Lent::holding(rng, &bytes)];
    let outcome =
        run.both("record_put", &[], lent, [], |api, [buffer], []| api.record_put(buffer.part_mut(), position, segment));
    if room < HEAD_BYTES && outcome.number() == 17 {
        run.reached("record_put, 17 for too little room for a head");
    }
    if (HEAD_BYTES..MARKED_HEAD_BYTES).contains(&room) && outcome.number() == 17 && Head::read(record).is_ok() {
        run.reached("record_put, 17 for a mark that is cut off");
    }
    let head = Head::read(&bytes);
    if head.is_ok() && outcome.number() == 1 {
        run.reached(if position >= most {
            "record_put, 1 where a sum would wrap"
        } else {
            "record_put, too little room"
        });
    }
    match head.map(|head| head.low_water) {
        Ok(None) if outcome.number() == 0 => run.reached("record_put, after a head of kind 16"),
        Ok(Some(_)) if outcome.number() == 0 => run.reached("record_put, after a head of kind 17"),
        _ => {}
    }
    if outcome.number() == 0 && outcome.answer.length > RECORD_LIMIT as u64 {
        run.reached("record_put, past the most of a record");
    }
}

fn read(run: &mut Run, rng: &mut Rng, device: Device, record: &Lent<u8>) {
    let inputs = [record];
    let bytes = record.part();
    run.ask("record_check", &inputs, |api| api.record_check(device, bytes));
    run.ask("record_head", &inputs, |api| api.record_head(device, bytes));
    let position = position(rng, bytes);
    run.ask("record_segment", &inputs, |api| api.record_segment(device, bytes, position));
    run.ask("free_total", &inputs, |api| api.free_total(device, bytes));
}

/// In an accepted record, allocated, free and other sectors add up to S, by what the library answers.
fn sectors(run: &mut Run, device: Device, record: &[u8]) {
    let head = Library.record_head(device, record);
    if head.refusal.number != 0 {
        return;
    }
    let mut allocated = 0;
    for position in 0..head.segments {
        let answer = Library.record_segment(device, record, position);
        run.require("record_segment", answer.refusal.number == 0, "a segment of an accepted record is refused");
        allocated += u128::from(answer.segment.sectors);
    }
    let total = Library.free_total(device, record);
    let ends = 2 * (8 + u128::from(device.metadata) + u128::from(device.reserved));
    let sum = allocated + u128::from(total.sectors) + ends;
    let same = total.refusal.number == 0 && sum == u128::from(device.sectors);
    run.require("free_total", same, "the sectors do not add up to S");

    let mut table = vec![FreeRun::default(); MAX_SEGMENTS + 1];
    let runs = Library.free_runs(device, record, &mut table);
    let table = &table[..runs.count as usize];
    let free: u128 = table.iter().map(|run| u128::from(run.sectors)).sum();
    let same = runs.refusal.number == 0 && free == u128::from(total.sectors);
    run.require("free_runs", same, "the runs do not add up to the free total");
    // The same runs one by one, and how many.
    let counted = Library.run_count(device, record).count;
    run.require("run_count", counted == runs.count, "another count than the table's");
    for (number, entry) in (0..).zip(table) {
        let single = Library.run_at(device, record, number).run;
        run.require("run_at", single == *entry, "another run than the table's");
    }
}

/// A position in the record, just past it, one whose place in the record is inside it where the product wraps, or any number.
fn position(rng: &mut Rng, record: &[u8]) -> u64 {
    let count = segments_in(record) as u64;
    let inside = rng.below(count.max(1));
    let random = rng.next() >> rng.below(64);
    let wraps = (1 << 62) + inside;
    rng.one_of(&[0, inside, inside, inside, count.saturating_sub(1), count, wraps, random, u64::MAX])
}

/// The runs in a table that is not always long enough.
fn run_table(run: &mut Run, rng: &mut Rng, device: Device, record: &Lent<u8>, runs: &[ModelRun]) {
    let needed = runs.len();
    let random = rng.index(MAX_SEGMENTS + 2);
    let entries = rng.one_of(&[needed, needed, needed + 1, random, needed.saturating_sub(1), 0]);
    let lent = [Lent::random(rng, 2 * entries)];
    let outcome = run.both("free_runs", &[record], [], lent, |api, [], [table]| {
        api.free_runs(device, record.part(), as_runs(table.part_mut()))
    });
    match outcome.number() {
        0 => note_marked(run, record.part(), "free_runs, a head of kind 17"),
        1 => run.reached("free_runs, too little room"),
        _ => {}
    }
}

/// How many runs, one of them, and the first that is long enough.
fn single_runs(run: &mut Run, rng: &mut Rng, device: Device, record: &Lent<u8>, runs: &[ModelRun]) {
    let (inputs, bytes) = ([record], record.part());
    run.ask("run_count", &inputs, |api| api.run_count(device, bytes));
    let count = runs.len() as u64;
    let (inside, random) = (rng.below(count.max(1)), rng.next() >> rng.below(64));
    let number = rng.one_of(&[inside, inside, 0, count.saturating_sub(1), count, count + 1, random, u64::MAX]);
    let outcome = run.ask("run_at", &inputs, |api| api.run_at(device, bytes, number));
    if outcome.number() == 0 {
        run.reached(if number < count { "run_at, a run" } else { "run_at, past the last run" });
    }
    let sectors = wanted(rng, runs);
    let outcome = run.ask("first_fit", &inputs, |api| api.first_fit(device, bytes, sectors));
    if outcome.number() == 18 && sectors == 0 && model::record::check(&device, bytes).is_ok() {
        run.reached("first_fit, 18 for its own count");
    }
}

fn allocate(run: &mut Run, rng: &mut Rng, device: Device, record: &Lent<u8>, runs: &[ModelRun]) {
    let bytes = record.part();
    let random = rng.next() as u16;
    let valid = rng.within(1, 4) as u16;
    let good = !rng.once_in(6);
    let kind = if good { valid } else { rng.one_of(&[0, 5, 16, 17, 33, 257, u16::MAX, random]) };
    let wanted = wanted(rng, runs);
    let needed = bytes.len() + 20;
    let random = rng.index(2 * RECORD_LIMIT);
    let choices = [needed, needed, needed + 1, RECORD_LIMIT, random, needed - 1, bytes.len(), 0];
    let room = rng.one_of(&choices);
    let changed = [Lent::random(rng, room)];
    let outcome = run.both("allocate", &[record], changed, [], |api, [changed], []| {
        api.allocate(device, bytes, kind, wanted, changed.part_mut())
    });
    let accepted = model::record::check(&device, bytes).is_ok();
    match outcome.number() {
        0 => note_marked(run, bytes, "allocate, a head of kind 17"),
        21 => note_marked(run, bytes, "allocate, 21 with a head of kind 17"),
        1 if accepted => run.reached("allocate, too little room"),
        17 if accepted => run.reached("allocate, 17 for its own kind"),
        18 if accepted => run.reached("allocate, 18 for its own count"),
        _ => {}
    }
}

/// A length to ask for: that of a free run, one more, one less, none, or any.
fn wanted(rng: &mut Rng, runs: &[ModelRun]) -> u64 {
    let longest = runs.iter().map(|run| run.length).max().unwrap_or(1);
    let some = if runs.is_empty() { 1 } else { runs[rng.index(runs.len())].length };
    let random = rng.next() >> rng.below(64);
    let choices = [0, 1, 2, some, some, some + 1, some - 1, longest, longest + 1, random, u64::MAX];
    rng.one_of(&choices)
}

fn release(run: &mut Run, rng: &mut Rng, device: Device, record: &Lent<u8>) {
    let bytes = record.part();
    let position = position(rng, bytes);
    let needed = bytes.len().saturating_sub(20);
    let random = rng.index(2 * RECORD_LIMIT);
    let short = needed.saturating_sub(1);
    let choices = [needed, needed, needed + 1, RECORD_LIMIT, random, short, 0];
    let room = rng.one_of(&choices);
    let changed = [Lent::random(rng, room)];
    let outcome = run.both("release", &[record], changed, [], |api, [changed], []| {
        api.release(device, bytes, position, changed.part_mut())
    });
    match outcome.number() {
        0 => note_marked(run, bytes, "release, a head of kind 17"),
        1 => run.reached("release, too little room"),
        _ => {}
    }
}
