//! Updates: refusals, plans, stores and groups; settled; laying a record into a copy.

use outside::ffi::Library;
use outside::interface::{Interface, UpdatePlan};
use outside::lent::Lent;
use outside::model::block::{Identity, Time};
use outside::model::layout::{COPY, RECORD_LIMIT, SECTOR};
use outside::rng::Rng;
use outside::sample::copies::{any_pair, copy, damage_pair, in_step, payload, Area};
use outside::sample::numbers::{break_nanoseconds, earlier, identity, later, time, wrong_length};
use outside::sample::records::{any_record, record, segment_count};

use crate::blocks::length;
use crate::copies::lend;
use crate::heads::note_marked;
use crate::marks::settled;
use crate::plans::{broken_numbers, broken_uuid, foreign_copies, made_up_update, store_number};
use crate::run::Run;

pub fn case(run: &mut Run, rng: &mut Rng, _: u64) {
    if rng.once_in(4) {
        lay(run, rng);
    }
    let (identity, present, copies) = copies(rng);
    let lent = lend(rng, copies);
    settled(run, rng, &lent[0], &lent[1]);
    let time = update_time(rng, present);
    let record = if rng.coin() {
        let count = segment_count(rng);
        record(rng, &identity.device, count)
    } else {
        any_record(rng, &identity.device)
    };
    let record = Lent::holding(rng, &record);
    update(run, rng, [&lent[0], &lent[1]], time, &record);
}

/// Two copies: in step, nearly in step, or in any state.
pub fn copies(rng: &mut Rng) -> (Identity, Time, [Vec<u8>; 2]) {
    if rng.once_in(6) {
        let (identity, copies) = any_pair(rng);
        return (identity, time(rng), copies);
    }
    let identity = identity(rng);
    let (time, record) = (time(rng), payload(rng, &identity));
    let mut copies = in_step(rng, &identity, time, &record);
    match rng.below(12) {
        0 => damage_pair(rng, &mut copies),
        // One copy has a later entry that is not whole.
        1 => {
            if let Some(later) = later(rng, time) {
                let torn = Area::Torn(later, payload(rng, &identity));
                copies[rng.index(2)] = copy(rng, &identity, &[Area::Whole(time, record), torn]);
            }
        }
        // One copy has another record.
        2 => {
            let other = Area::Whole(time, payload(rng, &identity));
            copies[rng.index(2)] = copy(rng, &identity, &[Area::Unused, other]);
        }
        _ => {}
    }
    (identity, time, copies)
}

fn update_time(rng: &mut Rng, present: Time) -> Time {
    let mut next = match rng.below(12) {
        0 => present,
        1 => earlier(rng, present).unwrap_or(present),
        2 => time(rng),
        _ => later(rng, present).unwrap_or(present),
    };
    if rng.once_in(12) {
        next.nanoseconds = break_nanoseconds(rng);
    }
    next
}

fn update(run: &mut Run, rng: &mut Rng, [front, back]: [&Lent<u8>; 2], time: Time, record: &Lent<u8>) {
    let inputs = [front, back, record];
    let checked =
        run.ask("update_check", &inputs, |api| api.update_check(front.part(), back.part(), time, record.part()));
    let outcome =
        run.ask("update_plan", &inputs, |api| api.update_plan(front.part(), back.part(), time, record.part()));
    run.require("update_plan", checked.answer == outcome.answer.refusal, "refused otherwise than by update_check");
    let plan = outcome.expected.plan;
    if outcome.expected.refusal.number == 0 {
        let count = run.ask("update_count", &[], |api| api.update_count(plan)).expected;
        for number in 0..count + 2 {
            store(run, rng, plan, inputs, number);
        }
        let number = rng.next();
        store(run, rng, plan, inputs, number);
        wrong_sizes(run, rng, plan, inputs);
        wrong_record(run, rng, plan, inputs, count);
        note_marked(run, record.part(), "an update to a head of kind 17");
    }
    if front.part().len() == COPY && back.part().len() == COPY {
        for _ in 0..4 {
            made_up(run, rng, plan, inputs);
        }
    }
}

/// A store and its group; its refusal number.
fn store(run: &mut Run, rng: &mut Rng, plan: UpdatePlan, [front, back, record]: [&Lent<u8>; 3], number: u64) -> u64 {
    let group = run.ask("update_group", &[], |api| api.update_group(plan, number)).answer;
    let size = length(rng, SECTOR);
    let lent = [Lent::random(rng, size)];
    let outcome = run.both("update_store", &[], lent, [], |api, [bytes], []| {
        api.update_store(plan, front.part(), back.part(), record.part(), number, bytes.part_mut())
    });
    if outcome.number() == 0 {
        // The last of its group.
        let last = Library.update_group(plan, number + 1) != group;
        run.require("update_store", outcome.answer.flush == last, "a flush that is not after the last of a group");
    }
    outcome.number()
}

/// A store asked for with one slice of another size.
fn wrong_sizes(run: &mut Run, rng: &mut Rng, plan: UpdatePlan, [front, back, record]: [&Lent<u8>; 3]) {
    let side = rng.index(2);
    let size = wrong_length(rng, COPY);
    let mut copies = [front.part().to_vec(), back.part().to_vec()];
    copies[side].resize(size, 0);
    let [front, back] = copies.map(|copy| Lent::holding(rng, &copy));
    let number = rng.below(4);
    store(run, rng, plan, [&front, &back, record], number);
}

/// A store asked for with a record of a length that is not allowed: 15, also past the last store, and 1 before it. One of another
/// length that is allowed: 1.
fn wrong_record(run: &mut Run, rng: &mut Rng, plan: UpdatePlan, [front, back, record]: [&Lent<u8>; 3], count: u64) {
    let above = RECORD_LIMIT + 1 + rng.index(RECORD_LIMIT);
    let allowed = rng.within(1, RECORD_LIMIT as u64) as usize;
    let near = record.part().len() - 1;
    let record_length = rng.one_of(&[0, RECORD_LIMIT + 1, above, allowed, near, near + 2]);
    let record = Lent::random(rng, record_length);
    let number = rng.below(count + 2);
    store(run, rng, plan, [front, back, &record], number);
}

/// A plan that no call made, or copies that are not the plan's. The record has the plan's length, mostly.
fn made_up(run: &mut Run, rng: &mut Rng, plan: UpdatePlan, [front, back, record]: [&Lent<u8>; 3]) {
    let copies = foreign_copies(rng, [front.part(), back.part()]);
    let plan = made_up_update(rng, plan, [&copies[0], &copies[1]], record.part().len());
    let [front, back] = copies.map(|copy| Lent::holding(rng, &copy));
    let planned = plan.entry.bytes.min(2 * RECORD_LIMIT as u32) as usize;
    let random = rng.index(RECORD_LIMIT + 100);
    let as_it_was = record.part().len();
    let size = rng.one_of(&[planned, planned, planned, planned, planned + 1, as_it_was, 0, random]);
    let mut bytes = record.part().to_vec();
    bytes.resize(size, 0xa5);
    let record = Lent::holding(rng, &bytes);
    let count = run.ask("update_count", &[], |api| api.update_count(plan)).answer;
    let number = store_number(rng, count);
    let answer = store(run, rng, plan, [&front, &back, &record], number);
    run.reached("a store of an update that no call made");
    note_numbers(run, plan, [&front, &back], number, answer);
    if answer == 1 && size != planned {
        run.reached("update_store, 1 for a record of another length");
    }
}

/// Device numbers of the side's copy that are not allowed: 4, 7 or 8, after 23 and before what the block's writer refuses.
fn note_numbers(run: &mut Run, plan: UpdatePlan, copies: [&Lent<u8>; 2], number: u64, answer: u64) {
    let group = Library.update_group(plan, number);
    let side = usize::from(group > 1);
    let [own, other] = [side, 1 - side].map(|side| broken_numbers(copies[side].part()));
    let area = group == 0 || group == 2;
    match (answer, own) {
        (4, _) if area => run.reached("update_store, 4 for a store to an area"),
        (7, _) if area => run.reached("update_store, 7 for a store to an area"),
        (8, _) if area => run.reached("update_store, 8 for a store to an area"),
        (7 | 8, _) if broken_uuid(copies[side].part()) => run.reached("update_store, 7 or 8 before 6"),
        (0, None) if other.is_some() => run.reached("update_store, the other copy's device numbers not allowed"),
        (23, Some(_)) => run.reached("update_store, 23 before the device numbers"),
        _ => {}
    }
}

fn lay(run: &mut Run, rng: &mut Rng) {
    let random = rng.index(2 * RECORD_LIMIT);
    let exact = rng.index(17) * SECTOR;
    let choices = [0, 1, 511, 512, 513, RECORD_LIMIT, RECORD_LIMIT + 1, random, random, exact];
    let record_length = rng.one_of(&choices);
    let record = Lent::random(rng, record_length);
    let size = length(rng, COPY);
    let copy = [Lent::random(rng, size)];
    let random = rng.next() as u8;
    let area = rng.one_of(&[0, 0, 0, 1, 1, 2, 0xff, random]);
    run.both("lay", &[&record], copy, [], |api, [copy], []| api.lay(copy.part_mut(), area, record.part()));
    if area > 1 {
        run.reached("lay, an area that is neither 0 nor 1");
    }
}
