//! Stores applied to the copies in memory: single ones, and those of updates and mends in turn.

use outside::disk::{Disk, Store};
use outside::interface::{Answer, Device, Interface, MendPlan, Refused, StoreAnswer, UpdatePlan};
use outside::lent::Lent;
use outside::model::layout::{COPY, SECTOR};
use outside::rng::Rng;
use outside::sample::copies::in_step;
use outside::sample::numbers::{any_device, device, identity, later, time};
use outside::sample::records::{record, segment_count};

use crate::blocks::length;
use crate::copies::any_copies;
use crate::run::{Outcome, Run};

pub fn case(run: &mut Run, rng: &mut Rng, number: u64) {
    single(run, rng);
    if number.is_multiple_of(4) {
        update(run, rng);
    } else {
        mend(run, rng);
    }
}

/// One store, to a sector of a copy, beside one, or anywhere.
fn single(run: &mut Run, rng: &mut Rng) {
    let device = if rng.once_in(4) { any_device(rng) } else { device(rng) };
    let sector = sector(rng, &device);
    let size = length(rng, SECTOR);
    let bytes = Lent::random(rng, size);
    let copies = [length(rng, COPY), length(rng, COPY)].map(|size| Lent::random(rng, size));
    let before = copies.clone();
    let outcome = apply(run, device, sector, &bytes, copies);
    if outcome.number() == 0 {
        let same = |side: usize| before[side].whole() == outcome.library.0[side].whole();
        run.reached(match [same(0), same(1)] {
            [true, true] => "apply, a sector of neither copy",
            [false, true] => "apply, a sector of the front",
            [true, false] => "apply, a sector of the back",
            [false, false] => "apply, both copies changed",
        });
    }
}

/// The sector of a part of a copy, or one past either end of it.
fn sector(rng: &mut Rng, device: &Device) -> u64 {
    let side = rng.index(2);
    let area = device.area_sector(side, rng.index(2));
    let header = device.block_sector(side).saturating_sub(1);
    let (in_area, in_header) = (area.saturating_add(rng.below(16)), header.saturating_add(rng.below(8)));
    let edges = [area, area.saturating_sub(1), area.saturating_add(15), area.saturating_add(16)];
    let edges =
        [edges, [header, header.saturating_sub(1), header.saturating_add(7), header.saturating_add(8)]].concat();
    let edge = rng.one_of(&edges);
    let random = rng.next() >> rng.below(64);
    rng.one_of(&[in_area, in_area, in_header, edge, edge, random, u64::MAX, device.sectors])
}

fn apply(
    run: &mut Run,
    device: Device,
    sector: u64,
    bytes: &Lent<u8>,
    copies: [Lent<u8>; 2],
) -> Outcome<Refused, 2, 0> {
    run.both("apply", &[bytes], copies, [], |api, [front, back], []| {
        api.apply(device, sector, bytes.part(), front.part_mut(), back.part_mut())
    })
}

/// Asks for a store with two copies: its number, and where its bytes go.
type Ask<'a> = dyn Fn(&dyn Interface, &[u8], &[u8], u64, &mut [u8]) -> StoreAnswer + 'a;

/// The stores of an update or of a mend, asked for by number.
struct Stores<'a> {
    call: &'static str,
    count: u64,
    device: Device,
    ask: &'a Ask<'a>,
}

fn update(run: &mut Run, rng: &mut Rng) {
    let identity = identity(rng);
    let present = time(rng);
    let Some(time) = later(rng, present) else {
        return;
    };
    let [old, new] = [(); 2].map(|()| {
        let count = segment_count(rng);
        record(rng, &identity.device, count)
    });
    let copies = in_step(rng, &identity, present, &old);
    let answer = run.ask("update_plan", &[], |api| api.update_plan(&copies[0], &copies[1], time, &new)).answer;
    let plan: UpdatePlan = answer.plan;
    run.require("update_plan", answer.number() == 0, "an update of copies in step is refused");
    let count = run.ask("update_count", &[], |api| api.update_count(plan)).answer;
    let ask = |api: &dyn Interface, front: &[u8], back: &[u8], number, bytes: &mut [u8]| {
        api.update_store(plan, front, back, &new, number, bytes)
    };
    let stores = Stores { call: "update_store", count, device: identity.device, ask: &ask };
    let after = in_turn(run, rng, &stores, copies);
    run.reached("an update applied, store by store");
    // The copies in memory are good for the next one.
    let found = run.ask("discover", &[], |api| api.discover(&after[0], &after[1])).answer;
    let same = found.number() == 0 && found.time == time && found.bytes as usize == new.len();
    run.require("apply", same, "the new record is not found in the copies in memory");
}

fn mend(run: &mut Run, rng: &mut Rng) {
    let copies = any_copies(rng);
    let found = run.ask("discover", &[], |api| api.discover(&copies[0], &copies[1])).answer;
    let answer = run.ask("mend_plan", &[], |api| api.mend_plan(&copies[0], &copies[1])).answer;
    let plan: MendPlan = answer.plan;
    if answer.number() != 0 || plan.needed == 0 {
        return;
    }
    let count = run.ask("mend_count", &[], |api| api.mend_count(plan)).answer;
    let ask = |api: &dyn Interface, front: &[u8], back: &[u8], number, bytes: &mut [u8]| {
        api.mend_store(plan, front, back, number, bytes)
    };
    let stores = Stores { call: "mend_store", count, device: found.block.device, ask: &ask };
    let after = in_turn(run, rng, &stores, copies);
    run.reached("a mend applied, store by store");
    if plan.last != 0 {
        run.reached("a mend with a last store applied, store by store");
    }
    let step = run.ask("in_step", &[], |api| api.in_step(&after[0], &after[1])).answer;
    run.require("apply", step.in_step, "the mended copies in memory are not in step");
}

/// All stores in turn, each applied to the copies in memory and landed on a device. Asked for with any number of earlier ones applied
/// they are the same, and the copies in memory are what the device then has. The copies after the last.
fn in_turn(run: &mut Run, rng: &mut Rng, stores: &Stores, copies: [Vec<u8>; 2]) -> [Vec<u8>; 2] {
    let first: Vec<(StoreAnswer, Vec<u8>)> =
        (0..stores.count).map(|number| store(run, rng, stores, &copies, number)).collect();
    let mut disk = Disk::new(stores.device, &copies);
    let mut memory = copies;
    for number in 0..stores.count {
        let (answer, bytes) = &first[number as usize];
        let random = rng.below(stores.count);
        for asked in [number, random] {
            let again = store(run, rng, stores, &memory, asked);
            run.require(stores.call, again == first[asked as usize], "another store with earlier ones applied");
        }
        let sector = Lent::holding(rng, bytes);
        let lent = [Lent::holding(rng, &memory[0]), Lent::holding(rng, &memory[1])];
        let applied = apply(run, stores.device, answer.sector, &sector, lent);
        run.require("apply", applied.number() == 0, "a store is refused");
        memory = applied.library.0.map(|copy| copy.part().to_vec());
        disk.land([&Store { sector: answer.sector, bytes: bytes[..].try_into().expect("a sector"), group: 0 }]);
        if answer.flush {
            run.require("apply", memory == disk.copies(), "the copies in memory are not those of the device");
        }
    }
    run.require("apply", memory == disk.copies(), "the copies in memory are not those of the device at the end");
    for number in 0..stores.count {
        let again = store(run, rng, stores, &memory, number);
        run.require(stores.call, again == first[number as usize], "another store with all of them applied");
    }
    memory
}

fn store(
    run: &mut Run,
    rng: &mut Rng,
    stores: &Stores,
    [front, back]: &[Vec<u8>; 2],
    number: u64,
) -> (StoreAnswer, Vec<u8>) {
    let lent = [Lent::random(rng, SECTOR)];
    let outcome = run
        .both(stores.call, &[], lent, [], |api, [bytes], []| (stores.ask)(api, front, back, number, bytes.part_mut()));
    run.require(stores.call, outcome.number() == 0, "a store of a plan is refused");
    (outcome.answer, outcome.library.0[0].part().to_vec())
}
