//! Cuts updates and mends of the library at every group, and holds what discovery then gives to what was promised.
//!
//! cuts                runs with the fixed seed
//! cuts SEED           runs with another seed
//! cuts SEED CASE      runs one case again

mod cut;
mod library;

use std::env;
use std::process::exit;

use cut::cut;
use library::{discover, in_step, mend, update, Plan, Stamped};
use outside::disk::{Disk, Store};
use outside::model::block::{Block, BlockBytes};
use outside::model::discovery::{block_of, Pair};
use outside::model::record::Head;
use outside::rng::Rng;
use outside::sample::copies::{any_pair, in_step as in_step_copies, payload};
use outside::sample::numbers::{identity, later, time};
use outside::sample::records::{record, segment_count};

const SEED: u64 = 20_261_115;
const CASES: u64 = 10_000;
/// Cuts of each group of an update, and of a mend.
const UPDATE_CUTS: u64 = 6;
const MEND_CUTS: u64 = 2;
/// How often a mend is cut before it is let through.
const MOST_MENDS: u64 = 6;
/// Updates of one disk, one after the other.
const MOST_UPDATES: u64 = 3;

#[derive(Default)]
struct Counts {
    updates: u64,
    /// To a record that has a low water mark.
    marked_updates: u64,
    update_cuts: u64,
    update_excepted: u64,
    new_records: u64,
    old_records: u64,
    chains: u64,
    mends: u64,
    mend_cuts: u64,
    mend_excepted: u64,
    landed_mends: u64,
    states: u64,
    refused_states: u64,
}

struct Cuts {
    seed: u64,
    case: u64,
    failures: u64,
    counts: Counts,
}

fn main() {
    let arguments: Vec<String> = env::args().skip(1).collect();
    let number = |text: &String| text.parse::<u64>().unwrap_or_else(|_| usage());
    if arguments.len() > 2 {
        usage();
    }
    let seed = arguments.first().map_or(SEED, number);
    let only = arguments.get(1).map(number);
    let mut cuts = Cuts { seed, case: 0, failures: 0, counts: Counts::default() };
    for case in only.map_or(0..CASES, |case| case..case + 1) {
        cuts.case = case;
        let mut rng = Rng::of_case(seed, 100, case);
        if case % 2 == 0 {
            cuts.updates(&mut rng);
        } else {
            cuts.any_state(&mut rng);
        }
    }
    cuts.finish(only.is_some());
}

fn usage() -> ! {
    eprintln!("usage: cuts [SEED [CASE]]");
    exit(2);
}

impl Cuts {
    /// Updates of a disk that is in step, each cut many times and then landed.
    fn updates(&mut self, rng: &mut Rng) {
        let identity = identity(rng);
        let mut old = Stamped { time: time(rng), record: payload(rng, &identity) };
        let copies = in_step_copies(rng, &identity, old.time, &old.record);
        let mut disk = Disk::new(identity.device, &copies);
        for _ in 0..rng.within(1, MOST_UPDATES) {
            let Some(time) = later(rng, old.time) else {
                return;
            };
            let count = segment_count(rng);
            let new = Stamped { time, record: record(rng, &identity.device, count) };
            let Plan { stores, memory } = match update(&disk, &new) {
                Ok(plan) => plan,
                Err(error) => return self.fail(&format!("an update: {error}")),
            };
            self.counts.updates += 1;
            self.counts.marked_updates += u64::from(Head::read(&new.record).is_ok_and(|head| head.low_water.is_some()));
            for group in 0..4 {
                for _ in 0..UPDATE_CUTS {
                    self.cut_update(rng, &disk, &stores, group, [&old, &new]);
                }
            }
            disk.land(&stores);
            self.landed(rng, &disk, &memory, &new, "update");
            old = new;
        }
    }

    /// One cut of an update; after some, the disk is mended.
    fn cut_update(&mut self, rng: &mut Rng, disk: &Disk, stores: &[Store], group: u8, [old, new]: [&Stamped; 2]) {
        let left = cut(rng, disk, stores, group);
        if left.excepted {
            self.counts.update_excepted += 1;
            return;
        }
        self.counts.update_cuts += 1;
        let is_new = left.disk.read(1) == new_front_block(stores);
        let promised = if is_new { new } else { old };
        if is_new {
            self.counts.new_records += 1;
        } else {
            self.counts.old_records += 1;
        }
        self.gives(rng, &left.disk, promised, &format!("update cut in group {group}"));
        if rng.once_in(4) {
            self.mends(rng, left.disk, promised);
        }
    }

    /// A disk in any state that discovery answers.
    fn any_state(&mut self, rng: &mut Rng) {
        let (_, copies) = any_pair(rng);
        let accepted = copies.iter().find_map(|copy| Block::read(block_of(copy)).ok());
        let Some(block) = accepted else {
            self.counts.refused_states += 1;
            return;
        };
        let disk = Disk::new(block.identity.device, &copies);
        match discover(rng, &disk) {
            Ok(found) => {
                self.counts.states += 1;
                for _ in 0..3 {
                    self.mends(rng, disk.clone(), &found);
                }
            }
            Err(_) => self.counts.refused_states += 1,
        }
    }

    /// Mends, cuts, mends again; every discovery gives the record found before the first mend.
    fn mends(&mut self, rng: &mut Rng, mut disk: Disk, found: &Stamped) {
        self.counts.chains += 1;
        for _ in 0..rng.below(MOST_MENDS) {
            let Some(Plan { stores, .. }) = self.mend_stores(&disk) else {
                return;
            };
            let groups = stores.last().map_or(0, |store| store.group + 1);
            if groups == 0 {
                break;
            }
            // Every group is cut; one of the cuts is what the next mend begins with.
            let go_on = rng.within(0, u64::from(groups) * MEND_CUTS - 1);
            let mut next = None;
            for number in 0..u64::from(groups) * MEND_CUTS {
                let group = (number / MEND_CUTS) as u8;
                let left = cut(rng, &disk, &stores, group);
                if left.excepted {
                    self.counts.mend_excepted += 1;
                    continue;
                }
                self.counts.mend_cuts += 1;
                self.gives(rng, &left.disk, found, &format!("mend cut in group {group}"));
                if number == go_on {
                    next = Some(left.disk);
                }
            }
            let Some(next) = next else {
                return;
            };
            disk = next;
        }
        if let Some(Plan { stores, memory }) = self.mend_stores(&disk) {
            disk.land(&stores);
            self.counts.landed_mends += 1;
            self.landed(rng, &disk, &memory, found, "mend");
        }
    }

    fn mend_stores(&mut self, disk: &Disk) -> Option<Plan> {
        self.counts.mends += 1;
        match mend(disk) {
            Ok(plan) => Some(plan),
            Err(error) => {
                self.fail(&format!("a mend: {error}"));
                None
            }
        }
    }

    /// Discovery gives this record with its time.
    fn gives(&mut self, rng: &mut Rng, disk: &Disk, promised: &Stamped, what: &str) {
        match discover(rng, disk) {
            Ok(found) if found == *promised => {}
            Ok(found) => {
                let (time, length) = (found.time, found.record.len());
                let found = format!("{time:?} of {length} bytes");
                let promised = format!("{:?} of {} bytes", promised.time, promised.record.len());
                self.fail(&format!("{what}: found {found}, promised {promised}"));
            }
            Err(error) => self.fail(&format!("{what}: {error}")),
        }
    }

    /// All stores landed: discovery gives the record, and the copies are in step on it. The copies that the stores were applied to in
    /// memory are those of the disk.
    fn landed(&mut self, rng: &mut Rng, disk: &Disk, memory: &[Vec<u8>; 2], promised: &Stamped, what: &str) {
        self.gives(rng, disk, promised, &format!("{what} landed"));
        if *memory != disk.copies() {
            self.fail(&format!("{what} landed: the copies in memory are not those of the disk"));
        }
        if !in_step(disk) {
            self.fail(&format!("{what} landed: the copies are not in step"));
        }
        let [front, back] = disk.copies();
        let in_step = Pair::read(&front, &back).is_ok_and(|pair| pair.in_step());
        if !in_step {
            self.fail(&format!("{what} landed: not in step, by the independent reading"));
        }
    }

    fn fail(&mut self, what: &str) {
        println!("FAILED {what}");
        println!("  run again: cuts {} {}", self.seed, self.case);
        self.failures += 1;
        if self.failures >= 10 {
            println!("stopped after 10 failures");
            exit(1);
        }
    }

    fn finish(&mut self, single: bool) {
        let c = &self.counts;
        println!("updates: {}, cuts: {}", c.updates, c.update_cuts);
        println!("  to a record with a low water mark: {}", c.marked_updates);
        println!("  the old record found: {}, the new one: {}", c.old_records, c.new_records);
        println!("  excepted (a wild block, accepted): {}", c.update_excepted);
        println!("states that discovery answers: {}, refused: {}", c.states, c.refused_states);
        println!("chains of mends: {}, mends: {}, cuts: {}", c.chains, c.mends, c.mend_cuts);
        println!("  excepted (a wild block, accepted): {}", c.mend_excepted);
        println!("  mends landed whole: {}", c.landed_mends);
        let reached = [
            c.updates,
            c.marked_updates,
            c.update_excepted,
            c.new_records,
            c.old_records,
            c.states,
            c.mend_cuts,
            c.mend_excepted,
            c.landed_mends,
        ];
        if !single && reached.contains(&0) {
            println!("FAILED one of these was never reached");
            self.failures += 1;
        }
        println!("cuts: seed {}, {} failures", self.seed, self.failures);
        if self.failures > 0 {
            exit(1);
        }
    }
}

/// The front block as the update stores it.
fn new_front_block(stores: &[Store]) -> BlockBytes {
    let store = stores.iter().find(|store| store.sector == 1);
    store.expect("an update stores the front block").bytes
}
