//! Sectors that could not be read: whether they matter, by their marks.

use outside::ffi::Library;
use outside::interface::{FoundAnswer, Interface, MendAnswer, StepAnswer, StoreAnswer, Time, UpdateAnswer};
use outside::lent::Lent;
use outside::model::block::{Block, MAX_NANOSECONDS};
use outside::model::discovery::{block_of, is_whole};
use outside::model::layout::{COPY, SECTOR};
use outside::model::settled::{matters, was_read, COPY_SECTORS};
use outside::rng::Rng;

use crate::run::Run;

/// Where the sectors of areas a and b begin in a copy, and that of the block.
const AREA: [usize; 2] = [8, 24];
const BLOCK: usize = 1;

/// Two copies in slices of any sizes, with marks of all kinds.
pub fn settled(run: &mut Run, rng: &mut Rng, front: &Lent<u8>, back: &Lent<u8>) {
    let matter = [matters(front.part()), matters(back.part())];
    let read = [vec![0; COPY_SECTORS], vec![0; COPY_SECTORS]];
    one(run, rng, [front, back], read);
    let marks = any_marks(rng, &matter);
    one(run, rng, [front, back], marks);
    if rng.once_in(32) {
        each(run, rng, [front, back], &matter);
    }
}

/// Each sector alone not read: it matters, or does not.
fn each(run: &mut Run, rng: &mut Rng, [front, back]: [&Lent<u8>; 2], matter: &[[bool; COPY_SECTORS]; 2]) {
    for side in 0..2 {
        for sector in 0..COPY_SECTORS {
            let mut marks = [[0; COPY_SECTORS]; 2];
            marks[side][sector] = mark(rng);
            let answer = ask(run, rng, [front, back], &marks.map(|marks| marks.to_vec()));
            run.require("settled", answer != matter[side][sector], "a sector alone that matters, or one that does not");
        }
    }
    run.reached("settled, each sector alone");
}

/// A mark of a sector that could not be read.
fn mark(rng: &mut Rng) -> u8 {
    let random = rng.next() as u8 | 1;
    rng.one_of(&[1, 1, 2, 0x80, 0xff, random])
}

/// Marks of both copies, of one kind; of any length at times.
fn any_marks(rng: &mut Rng, matter: &[[bool; COPY_SECTORS]; 2]) -> [Vec<u8>; 2] {
    let mut marks = [vec![0; COPY_SECTORS], vec![0; COPY_SECTORS]];
    let (kind, one) = (rng.below(8), rng.index(2));
    for (side, (marks, matter)) in marks.iter_mut().zip(matter).enumerate() {
        let choose = |rng: &mut Rng, wanted: bool| {
            let sectors: Vec<usize> = (0..COPY_SECTORS).filter(|&sector| matter[sector] == wanted).collect();
            rng.one_of(&sectors)
        };
        match kind {
            0 => {}
            // A few.
            1 => (0..rng.below(4)).for_each(|_| marks[rng.index(COPY_SECTORS)] = mark(rng)),
            // All that do not matter, or some of them; and at times one that does.
            2..7 => {
                let all = rng.coin();
                for (mark_of, matters) in marks.iter_mut().zip(matter) {
                    if !matters && (all || rng.coin()) {
                        *mark_of = mark(rng);
                    }
                }
                if kind > 4 && side == one {
                    marks[choose(rng, true)] = mark(rng);
                }
            }
            // One that matters in one copy, and one that does not in the other.
            _ => marks[choose(rng, side == one)] = mark(rng),
        }
        if rng.once_in(4) {
            let length = marks_length(rng, matter);
            marks.resize(length, 0);
            if let Some(past) = marks.get_mut(COPY_SECTORS..) {
                rng.fill(past);
            }
        }
    }
    marks
}

/// How many marks: at the last sector that matters, at their right number, or any.
fn marks_length(rng: &mut Rng, matter: &[bool; COPY_SECTORS]) -> usize {
    let enough = matter.iter().rposition(|&matters| matters).map_or(0, |last| last + 1);
    let random = rng.index(3 * COPY_SECTORS);
    let right = COPY_SECTORS;
    rng.one_of(&[enough, enough, enough - 1, enough + 1, right - 1, right + 1, 0, 1, 2, random])
}

fn ask(run: &mut Run, rng: &mut Rng, [front, back]: [&Lent<u8>; 2], marks: &[Vec<u8>; 2]) -> bool {
    let [front_marks, back_marks] = [0, 1].map(|side| Lent::holding(rng, &marks[side]));
    let inputs = [front, back, &front_marks, &back_marks];
    run.ask("settled", &inputs, |api| api.settled(front.part(), back.part(), front_marks.part(), back_marks.part()))
        .answer
}

/// The copies with these marks; then with other bytes in the sectors that were not read: where they are settled everything is the same.
fn one(run: &mut Run, rng: &mut Rng, copies: [&Lent<u8>; 2], marks: [Vec<u8>; 2]) {
    let settled = ask(run, rng, copies, &marks);
    note(run, copies, &marks, settled);
    if copies.iter().any(|copy| copy.part().len() != COPY) {
        return run.reached("settled, a slice that is no copy");
    }
    let zeros = rng.below(4) > 0;
    let other = [0, 1].map(|side| {
        let mut bytes = copies[side].part().to_vec();
        for sector in (0..COPY_SECTORS).filter(|&sector| !was_read(&marks[side], sector)) {
            let bytes = &mut bytes[sector * SECTOR..][..SECTOR];
            bytes.fill(0);
            if !zeros {
                rng.fill(bytes);
            }
        }
        Lent::holding(rng, &bytes)
    });
    let again = ask(run, rng, [&other[0], &other[1]], &marks);
    let as_read = Told::of([copies[0].part(), copies[1].part()]);
    let without = Told::of([other[0].part(), other[1].part()]);
    if settled {
        run.require("settled", again, "yes, and no with other bytes in the sectors that were not read");
        run.require("settled", as_read == without, "yes, but what was not read makes a difference");
    } else if as_read.found.refusal.number == 0
        && without.found.refusal.number == 0
        && without.found.time < as_read.found.time
    {
        run.reached("settled, no: an older record is found without what was not read");
    }
}

/// What discovery, a mend and an update answer and store.
#[derive(PartialEq)]
struct Told {
    found: FoundAnswer,
    record: Vec<u8>,
    step: StepAnswer,
    mend: MendAnswer,
    update: UpdateAnswer,
    stores: Vec<(StoreAnswer, [u8; SECTOR])>,
}

impl Told {
    /// By the library.
    fn of([front, back]: [&[u8]; 2]) -> Told {
        let mut record = vec![0; 16 * SECTOR];
        let found = Library.read_found(front, back, &mut record);
        let mend = Library.mend_plan(front, back);
        let mut stores = Vec::new();
        for number in 0..Library.mend_count(mend.plan) {
            let mut bytes = [0; SECTOR];
            stores.push((Library.mend_store(mend.plan, front, back, number, &mut bytes), bytes));
        }
        // The last time that there is, with a record that every device takes.
        let time = Time { seconds: u64::MAX, nanoseconds: MAX_NANOSECONDS };
        let mut new = [0; 8];
        Library.record_begin(&mut new, 128);
        let update = Library.update_plan(front, back, time, &new);
        for number in 0..Library.update_count(update.plan) {
            let mut bytes = [0; SECTOR];
            stores.push((Library.update_store(update.plan, front, back, &new, number, &mut bytes), bytes));
        }
        Told { found, record, step: Library.in_step(front, back), mend, update, stores }
    }
}

/// Counts which sectors were not read.
fn note(run: &mut Run, copies: [&Lent<u8>; 2], marks: &[Vec<u8>; 2], settled: bool) {
    let unread = |side: usize, sector: usize| !was_read(&marks[side], sector);
    let all = (0..2).all(|side| (0..COPY_SECTORS).all(|sector| !unread(side, sector)));
    if all {
        run.require("settled", settled, "no, but every sector was read");
        run.reached("settled, yes: all were read");
    }
    if marks.iter().any(|marks| marks.len() > COPY_SECTORS) {
        run.reached(if settled { "settled, yes: more marks" } else { "settled, no: more marks" });
    }
    if marks.iter().any(|marks| marks.len() < COPY_SECTORS) {
        run.reached(if settled { "settled, yes: too few marks" } else { "settled, no: too few marks" });
    }
    for (side, copy) in copies.map(Lent::part).into_iter().enumerate() {
        if unread(side, BLOCK) {
            run.require("settled", !settled, "yes, but a block was not read");
            run.reached("settled, no: a block");
            continue;
        }
        let block = if copy.len() == COPY { Block::read(block_of(copy)).ok() } else { None };
        let Some(block) = block else {
            if settled && unread(side, AREA[0]) {
                run.reached("settled, yes: an area beside a refused block");
            }
            continue;
        };
        let Some(later) = block.later_entry() else {
            if settled && unread(side, AREA[0]) && unread(side, AREA[1]) {
                run.reached("settled, yes: areas that are not used");
            }
            continue;
        };
        let whole = is_whole(copy, later, &block.entries[later]);
        let named = |area: usize| {
            let sectors = (block.entries[area].bytes as usize).div_ceil(SECTOR);
            (0..sectors).any(|sector| unread(side, AREA[area] + sector))
        };
        let past = |area: usize| {
            let sectors = (block.entries[area].bytes as usize).div_ceil(SECTOR);
            sectors < 16 && unread(side, AREA[area] + sectors)
        };
        match (named(later), named(1 - later)) {
            (true, _) => {
                run.require("settled", !settled, "yes, but a sector of the later record was not read");
                run.reached("settled, no: the later record");
            }
            (false, true) if whole && settled => run.reached("settled, yes: the earlier record"),
            (false, true) if !whole => {
                run.require("settled", !settled, "yes, but a sector of the record to fall back on was not read");
                run.reached("settled, no: the earlier record, the later one not whole");
            }
            _ if settled && past(later) => run.reached("settled, yes: just past the later record"),
            _ => {}
        }
    }
}
