//! One record through many allocations and releases, and moves of its head.

use outside::interface::Device;
use outside::lent::Lent;
use outside::model::layout::RECORD_LIMIT;
use outside::model::record::{Head, MARKED_KIND};
use outside::moves::Move;
use outside::rng::Rng;
use outside::sample::numbers::device;
use outside::sample::records::{head, low_water, segments_in};

use crate::heads::{begin, moved};
use crate::run::Run;

const STEPS: u64 = 40;

pub fn case(run: &mut Run, rng: &mut Rng, _: u64) {
    let device = device(rng);
    let head = head(rng);
    let lent = [Lent::random(rng, head.length())];
    let begun = begin(run, head, lent);
    let mut record = begun.model.0[0].part().to_vec();
    let share = rng.within(1, 20);
    for _ in 0..STEPS {
        let count = segments_in(&record) as u64;
        let changed = if rng.once_in(8) {
            let to = rng.one_of(&[Move::Up, Move::Back, Move::Mark(0)]);
            let to = if rng.coin() { to } else { Move::Mark(low_water(rng)) };
            moved(run, rng, device, &record, to)
        } else if count > 0 && rng.once_in(3) {
            let position = rng.below(count);
            release(run, rng, &device, &record, position)
        } else {
            let room = device.data_end() - device.data_start();
            let random = rng.within(1, room / share);
            let length = rng.one_of(&[1, 2, 3, 100, random, random]);
            allocate(run, rng, &device, &record, length)
        };
        let Some(changed) = changed else {
            continue;
        };
        record = changed;
        let lent = Lent::holding(rng, &record);
        let checked = run.ask("record_check", &[&lent], |api| api.record_check(device, lent.part()));
        run.require("record_check", checked.number() == 0, "a changed record is refused");
    }
    put_again(run, rng, &device, &record);
}

/// The record again from its segments, put one by one into a buffer that was begun.
fn put_again(run: &mut Run, rng: &mut Rng, device: &Device, record: &[u8]) {
    let head = run.ask("record_head", &[], |api| api.record_head(*device, record)).answer;
    let room = record.len() + rng.index(40);
    let lent = [Lent::random(rng, room)];
    let begun = Head { block_size: head.block_size, low_water: (head.kind == MARKED_KIND).then_some(head.low_water) };
    let mut buffer = begin(run, begun, lent).library.0;
    let mut length = begun.length();
    for position in 0..head.segments {
        let segment =
            run.ask("record_segment", &[], |api| api.record_segment(*device, record, position)).answer.segment;
        let put = run.both("record_put", &[], buffer, [], |api, [buffer], []| {
            api.record_put(buffer.part_mut(), position, segment)
        });
        length = put.answer.length as usize;
        buffer = put.library.0;
    }
    let same = buffer[0].part().get(..length) == Some(record);
    run.require("record_put", same, "the segments put again give another record");
    run.reached("record_put, a whole record");
}

/// The record with a segment more, at the start of the first run that is long enough. Releasing that one again gives the record as
/// it was.
fn allocate(run: &mut Run, rng: &mut Rng, device: &Device, record: &[u8], length: u64) -> Option<Vec<u8>> {
    let kind = rng.within(1, 4) as u16;
    let input = Lent::holding(rng, record);
    let lent = [Lent::random(rng, RECORD_LIMIT)];
    let outcome = run.both("allocate", &[&input], lent, [], |api, [changed], []| {
        api.allocate(*device, input.part(), kind, length, changed.part_mut())
    });
    if outcome.number() != 0 {
        return None;
    }
    let answer = outcome.answer;
    let fit = run.ask("first_fit", &[&input], |api| api.first_fit(*device, input.part(), length)).answer;
    let same = fit.refusal.number == 0 && fit.run.start == answer.start && fit.run.sectors >= length;
    run.require("first_fit", same, "not the run that was allocated from");
    let changed = outcome.library.0[0].part()[..answer.length as usize].to_vec();
    let last = segments_in(record) as u64;
    let released = release(run, rng, device, &changed, last);
    let same = released.as_deref() == Some(record);
    run.require("release", same, "releasing what was allocated gives another record");
    Some(changed)
}

/// The record without the segment at a position.
fn release(run: &mut Run, rng: &mut Rng, device: &Device, record: &[u8], position: u64) -> Option<Vec<u8>> {
    let input = Lent::holding(rng, record);
    let lent = [Lent::random(rng, RECORD_LIMIT)];
    let outcome = run.both("release", &[&input], lent, [], |api, [changed], []| {
        api.release(*device, input.part(), position, changed.part_mut())
    });
    if outcome.number() != 0 {
        return None;
    }
    Some(outcome.library.0[0].part()[..outcome.answer.length as usize].to_vec())
}
