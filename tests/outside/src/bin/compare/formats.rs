//! Formatting, and the stores that write two whole copies.

use outside::disk::Disk;
use outside::ffi::Library;
use outside::interface::{Device, Interface};
use outside::lent::Lent;
use outside::model::layout::{COPY, RECORD_LIMIT, SECTOR};
use outside::rng::Rng;
use outside::sample::numbers::{any_device, break_device, break_nanoseconds, identity, not_hex, time};
use outside::sample::records::{any_record, record, segment_count};

use crate::blocks::{length, uuid_slice};
use crate::heads::note_marked;
use crate::run::Run;

pub fn case(run: &mut Run, rng: &mut Rng, _: u64) {
    let mut identity = identity(rng);
    let mut time = if rng.once_in(4) { Default::default() } else { time(rng) };
    let record = if rng.coin() {
        let count = segment_count(rng);
        record(rng, &identity.device, count)
    } else {
        any_record(rng, &identity.device)
    };
    while rng.once_in(3) {
        match rng.below(4) {
            0 => break_device(rng, &mut identity.device),
            1 => identity.pool_uuid[rng.index(32)] = not_hex(rng),
            2 => identity.device_uuid[rng.index(32)] = not_hex(rng),
            _ => time.nanoseconds = break_nanoseconds(rng),
        }
    }
    let record = Lent::holding(rng, &record);
    let pool = uuid_slice(rng, &identity.pool_uuid);
    let blockdev = uuid_slice(rng, &identity.device_uuid);
    let sizes = [length(rng, COPY), length(rng, COPY)];
    let copies = sizes.map(|size| Lent::random(rng, size));
    let device = identity.device;
    let inputs = [&pool, &blockdev, &record];
    let outcome = run.both("format", &inputs, copies, [], |api, [front, back], []| {
        let (front, back) = (front.part_mut(), back.part_mut());
        api.format(front, back, device, pool.part(), blockdev.part(), time, record.part())
    });
    if outcome.number() == 0 {
        let [front, back] = &outcome.library.0;
        formatted(run, rng, front, back, record.part());
        note_marked(run, record.part(), "format, a head of kind 17");
        if rng.once_in(16) {
            stored(run, rng, device, [front, back]);
        }
    }
    some_store(run, rng);
}

/// Formatted copies are in step on the record.
fn formatted(run: &mut Run, rng: &mut Rng, front: &Lent<u8>, back: &Lent<u8>, record: &[u8]) {
    let step = Library.in_step(front.part(), back.part());
    run.require("format", step.refusal.number == 0 && step.in_step, "formatted copies are not in step");
    let lent = [Lent::random(rng, RECORD_LIMIT)];
    let read = run.both("read_found", &[front, back], lent, [], |api, [record], []| {
        api.read_found(front.part(), back.part(), record.part_mut())
    });
    let same = read.number() == 0 && read.library.0[0].part().starts_with(record);
    run.require("format", same, "the formatted record is not found");
}

/// All stores of two copies, landed on a device that was empty, are those copies; no sector is stored to twice.
fn stored(run: &mut Run, rng: &mut Rng, device: Device, [front, back]: [&Lent<u8>; 2]) {
    let count = run.ask("format_count", &[], |api| api.format_count()).answer;
    let mut disk = Disk::new(device, &[Vec::new(), Vec::new()]);
    for number in 0..count {
        let group = run.ask("format_group", &[], |api| api.format_group(number)).answer;
        let lent = [Lent::random(rng, SECTOR)];
        let outcome = run.both("format_store", &[], lent, [], |api, [bytes], []| {
            api.format_store(device, front.part(), back.part(), number, bytes.part_mut())
        });
        run.require("format_store", outcome.number() == 0, "a store is refused");
        let last = Library.format_group(number + 1) != group;
        run.require("format_store", outcome.answer.flush == last, "a flush that is not after the last of a group");
        let bytes = outcome.library.0[0].part().try_into().expect("a sector");
        let again = disk.write(outcome.answer.sector, &bytes);
        run.require("format_store", !again, "a sector is stored to twice");
    }
    let same = disk.copies() == [front.part(), back.part()];
    run.require("format_store", same, "the stores do not write the copies");
    run.reached("format_store, all stores of two copies");
}

/// A store of any number, for any device and copies of any bytes.
fn some_store(run: &mut Run, rng: &mut Rng) {
    let device = any_device(rng);
    let [front, back] = [length(rng, COPY), length(rng, COPY)].map(|size| Lent::random(rng, size));
    let size = length(rng, SECTOR);
    let lent = [Lent::random(rng, size)];
    let (inside, random) = (rng.below(80), rng.next() >> rng.below(64));
    let number = rng.one_of(&[inside, inside, inside, 79, 80, 81, random, u64::MAX]);
    run.ask("format_group", &[], |api| api.format_group(number));
    run.both("format_store", &[&front, &back], lent, [], |api, [bytes], []| {
        api.format_store(device, front.part(), back.part(), number, bytes.part_mut())
    });
}
