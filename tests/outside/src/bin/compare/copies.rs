//! Each copy read alone, discovery, reading, in step, settled, and mending, on two copies in any state.

use outside::ffi::Library;
use outside::interface::{FoundAnswer, Interface, MendPlan};
use outside::lent::Lent;
use outside::model::layout::{AREA_OFFSET, COPY, RECORD_LIMIT, SECTOR};
use outside::rng::Rng;
use outside::sample::copies::{any_pair, damage_pair, in_step, payload};
use outside::sample::numbers::{identity, time, wrong_length};

use crate::blocks::length;
use crate::heads::note_marked;
use crate::marks::settled;
use crate::plans::{broken_numbers, broken_uuid, foreign_copies, made_up_mend, store_number};
use crate::readings::readings;
use crate::run::Run;

pub fn case(run: &mut Run, rng: &mut Rng, _: u64) {
    let copies = any_copies(rng);
    let [front, back] = lend(rng, copies);
    readings(run, &front, &back);
    discovery(run, rng, &front, &back);
    settled(run, rng, &front, &back);
    mend(run, rng, &front, &back);
}

/// Two copies in any state.
pub fn any_copies(rng: &mut Rng) -> [Vec<u8>; 2] {
    if !rng.once_in(6) {
        return any_pair(rng).1;
    }
    let identity = identity(rng);
    let (time, record) = (time(rng), payload(rng, &identity));
    let mut copies = in_step(rng, &identity, time, &record);
    if rng.coin() {
        damage_pair(rng, &mut copies);
    }
    copies
}

/// The copies as slices that are at times too short or too long.
pub fn lend(rng: &mut Rng, copies: [Vec<u8>; 2]) -> [Lent<u8>; 2] {
    copies.map(|mut copy| {
        let size = if rng.once_in(4) { length(rng, COPY) } else { COPY };
        copy.resize(size, 0);
        Lent::holding(rng, &copy)
    })
}

fn discovery(run: &mut Run, rng: &mut Rng, front: &Lent<u8>, back: &Lent<u8>) {
    let inputs = [front, back];
    let outcome = run.ask("discover", &inputs, |api| api.discover(front.part(), back.part()));
    let mut record_bytes = rng.index(RECORD_LIMIT + 1);
    if outcome.expected.refusal.number == 0 {
        let FoundAnswer { side, bytes, other, .. } = outcome.expected;
        record_bytes = bytes as usize;
        if other != 0 {
            run.reached(if side == 0 {
                "discovery, the back block refused"
            } else {
                "discovery, the front block refused"
            });
        }
    }
    stepping(run, front, back);

    let random = rng.index(2 * RECORD_LIMIT);
    let choices = [record_bytes, record_bytes + 1, RECORD_LIMIT, random, record_bytes.saturating_sub(1), 0];
    let room = rng.one_of(&choices);
    let record = [Lent::random(rng, room)];
    let read = run.both("read_found", &inputs, record, [], |api, [record], []| {
        api.read_found(front.part(), back.part(), record.part_mut())
    });
    if read.number() == 0 {
        run.require("read_found", read.answer == outcome.answer, "answers something else than discovery");
    }
    if outcome.number() == 0 && read.number() == 1 {
        run.reached("read_found, too little room");
    }
}

/// 1 exactly where a slice has another size.
fn stepping(run: &mut Run, front: &Lent<u8>, back: &Lent<u8>) {
    let outcome = run.ask("in_step", &[front, back], |api| api.in_step(front.part(), back.part()));
    let right = front.part().len() == COPY && back.part().len() == COPY;
    run.require("in_step", outcome.number() == u64::from(!right), "1 for the right sizes, or another number");
    run.reached(match outcome.answer.in_step {
        true => "in_step, yes",
        false if right => "in_step, no",
        false => "in_step, a slice that is no copy",
    });
}

fn mend(run: &mut Run, rng: &mut Rng, front: &Lent<u8>, back: &Lent<u8>) {
    let outcome = run.ask("mend_plan", &[front, back], |api| api.mend_plan(front.part(), back.part()));
    let plan = outcome.expected.plan;
    if outcome.expected.refusal.number == 0 {
        let count = run.ask("mend_count", &[], |api| api.mend_count(plan));
        for number in 0..count.expected + 2 {
            mend_store(run, rng, plan, [front, back], number);
        }
        let number = rng.next();
        mend_store(run, rng, plan, [front, back], number);
        wrong_sizes(run, rng, plan, [front, back]);
        note_mend(run, plan);
        if plan.needed != 0 {
            let kept = [front, back][usize::from(plan.kept)].part();
            note_marked(run, &kept[AREA_OFFSET[usize::from(plan.area)]..], "a mend of a head of kind 17");
        }
    }
    if front.part().len() == COPY && back.part().len() == COPY {
        for _ in 0..4 {
            made_up(run, rng, plan, [front, back]);
        }
    }
}

/// A store asked for with one slice of another size.
fn wrong_sizes(run: &mut Run, rng: &mut Rng, plan: MendPlan, [front, back]: [&Lent<u8>; 2]) {
    let side = rng.index(2);
    let size = wrong_length(rng, COPY);
    let mut copies = [front.part().to_vec(), back.part().to_vec()];
    copies[side].resize(size, 0);
    let [front, back] = copies.map(|copy| Lent::holding(rng, &copy));
    let number = rng.below(4);
    mend_store(run, rng, plan, [&front, &back], number);
}

/// A plan that no call made, or copies that are not the plan's.
fn made_up(run: &mut Run, rng: &mut Rng, plan: MendPlan, [front, back]: [&Lent<u8>; 2]) {
    let copies = foreign_copies(rng, [front.part(), back.part()]);
    let plan = made_up_mend(rng, plan, [&copies[0], &copies[1]]);
    let [front, back] = copies.map(|copy| Lent::holding(rng, &copy));
    let count = run.ask("mend_count", &[], |api| api.mend_count(plan)).answer;
    let number = store_number(rng, count);
    let answer = mend_store(run, rng, plan, [&front, &back], number);
    run.reached("a store of a mend that no call made");
    note_numbers(run, plan, [&front, &back], number, answer);
    if answer == 1 && plan.needed != 0 && number < count {
        run.reached("mend_store, 1 for a record of another length");
    }
}

/// Device numbers of the kept copy that are not allowed: 4, 7 or 8, after 23 and before what the block's writer refuses.
fn note_numbers(run: &mut Run, plan: MendPlan, copies: [&Lent<u8>; 2], number: u64, answer: u64) {
    let side = usize::from(plan.kept != 0);
    let [kept, other] = [side, 1 - side].map(|side| broken_numbers(copies[side].part()));
    let record = Library.mend_group(plan, number) == 1;
    match (answer, kept) {
        (4, _) if record => run.reached("mend_store, 4 for a store of the record"),
        (7, _) if record => run.reached("mend_store, 7 for a store of the record"),
        (8, _) if record => run.reached("mend_store, 8 for a store of the record"),
        (7 | 8, _) if broken_uuid(copies[side].part()) => run.reached("mend_store, 7 or 8 before 6"),
        (0, None) if other.is_some() => run.reached("mend_store, the other copy's device numbers not allowed"),
        (23, Some(_)) if plan.needed != 0 => run.reached("mend_store, 23 before the device numbers"),
        _ => {}
    }
}

fn note_mend(run: &mut Run, plan: MendPlan) {
    if plan.needed == 0 {
        run.require("mend_plan", plan == MendPlan::default(), "nothing to store, but a field is not zero");
        return run.reached("mend, nothing to do");
    }
    run.reached(if plan.kept == 0 { "mend, front kept" } else { "mend, back kept" });
    if plan.last != 0 {
        run.reached("mend, last store blanks an entry");
    }
}

/// A store and its group; its refusal number.
fn mend_store(run: &mut Run, rng: &mut Rng, plan: MendPlan, [front, back]: [&Lent<u8>; 2], number: u64) -> u64 {
    let group = run.ask("mend_group", &[], |api| api.mend_group(plan, number)).answer;
    let size = length(rng, SECTOR);
    let lent = [Lent::random(rng, size)];
    let outcome = run.both("mend_store", &[], lent, [], |api, [bytes], []| {
        api.mend_store(plan, front.part(), back.part(), number, bytes.part_mut())
    });
    if outcome.number() == 0 {
        // The last of its group.
        let last = Library.mend_group(plan, number + 1) != group;
        run.require("mend_store", outcome.answer.flush == last, "a flush that is not after the last of a group");
    }
    outcome.number()
}
