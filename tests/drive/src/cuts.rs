//! Cuts power in updates, allocations, releases, changes of the head, mends, formats and restores, at every store and flush, and
//! holds what the command then says to what was promised:
//!
//! - update, allocate, release, head, mark: the new record exactly when the front block stands in its new version, else the old one;
//! - mend: the record that was found before;
//! - format of an empty drive: a refusal, or the new record;
//! - restore over copies in step: the record before it, or the backup's.
//!
//! Then `mend` brings the copies in step on that record. The one exception: a wild sector that is an accepted signature
//! block and equals neither version.

use std::fs;

use crate::command::{Bench, Call, Failures, Run, IMAGE};
use crate::image::{found_line, Copies, Image, Stamped, Store, DEVICE, POOL};
use crate::model::block::{Block, Entry, Identity};
use crate::model::layout::{Device, BACK, FRONT};
use crate::model::record::{Head, Record};
use crate::model::refusal::Refusal;
use crate::model::{heads, room};
use crate::states::{half_updated, headed, identity, in_step, spoil_block, stamped, tear, LARGE, MARKED, PLAIN, SMALL};

/// What discovery has to give after a cut.
enum Promise {
    /// The new record exactly when the front block stands in its new version.
    Update { old: Stamped, new: Stamped },
    /// The record found before.
    Mend(Stamped),
}

struct Case {
    name: String,
    device: Device,
    words: Vec<String>,
    before: Copies,
    stores: Vec<Store>,
    promise: Promise,
}

/// The flush before the first store, a write of a store, or the flush of a group.
enum Event {
    First,
    Write(usize),
    Flush(u8),
}

/// What becomes of the held sectors.
struct Fate {
    keep: String,
    wild: Option<String>,
}

#[derive(Default)]
struct Counts {
    cases: u64,
    cuts: u64,
    old: u64,
    new: u64,
    kept: u64,
    excused: u64,
    again: u64,
    fills: u64,
    empty: u64,
}

pub struct Cuts<'a> {
    bench: &'a mut Bench,
    image: Image,
    seeds: u64,
    counts: Counts,
    pub failures: Failures,
}

const TIME: (&str, &str) = ("SHIM_TIME", "30.7");
const PAST_THE_END: &str = "1000000";

impl<'a> Cuts<'a> {
    pub fn new(bench: &'a mut Bench, seeds: u64) -> Self {
        let image = Image::create(&bench.folder.join(IMAGE), SMALL).expect("an image can be made");
        Cuts { bench, image, seeds, counts: Counts::default(), failures: Failures::default() }
    }

    pub fn all(&mut self) {
        for case in self.cases() {
            self.counts.cases += 1;
            self.image = Image::create(&self.bench.folder.join(IMAGE), case.device).expect("an image can be made");
            self.whole(&case);
            let events = events(&case.stores);
            for number in 1..=events.len() {
                self.cut_at(&case, &events, number);
            }
        }
        self.image = Image::create(&self.bench.folder.join(IMAGE), SMALL).expect("an image can be made");
        self.format();
        self.restore();
        let c = &self.counts;
        println!("cuts: {} updates and mends, {} cuts, {} runs of the command", c.cases, c.cuts, self.bench.runs);
        println!("  found: the old record {}, the new one {}, the mended one {}", c.old, c.new, c.kept);
        println!("  excused (a wild block, accepted): {}; the mend after the cut was cut too: {}", c.excused, c.again);
        println!("  cuts of format and restore: {}, of which nothing is found yet: {}", c.fills, c.empty);
        if [c.old, c.new, c.kept, c.excused, c.again, c.fills, c.empty].contains(&0) {
            self.failures.add("one of these was never reached", &[], &[], None);
        }
    }

    fn cases(&self) -> Vec<Case> {
        let device = SMALL;
        let older = stamped(&device, 1, 10, 5);
        let newer = stamped(&device, 2, 20, 0);
        let large = stamped(&device, 409, 20, 0);
        let mut cases = Vec::new();

        let stepped = in_step(device, &older, &newer);
        for segments in [3, 409] {
            let new = stamped(&device, segments, 30, 7);
            let name = format!("record{segments}");
            fs::write(self.bench.folder.join(&name), &new.record).expect("a record can be written");
            cases.push(update_case(&format!("update {segments}"), device, &["update", IMAGE, &name], &stepped, new));
        }

        let mut record = newer.record.clone();
        let segment = room::allocate(&device, &record, 2, 100).expect("free room");
        record.extend_from_slice(&segment.item());
        let new = Stamped { time: crate::image::time(30, 7), record };
        cases.push(update_case("allocate", device, &["allocate", IMAGE, "thin-data", "100"], &stepped, new));
        let at = room::release(&device, &newer.record, 0).expect("a segment");
        let mut record = newer.record.clone();
        record.drain(at..at + 20);
        let new = Stamped { time: crate::image::time(30, 7), record };
        cases.push(update_case("release", device, &["release", IMAGE, "0"], &stepped, new));

        let with = |head, segments| headed(head, &device, segments, 20, 0);
        let head_case = |name, words: &[&str], found: &Stamped, new: Result<Record, Refusal>| {
            let new = new.expect("another head");
            let mut record = vec![0; new.length()];
            new.put(&mut record);
            let new = Stamped { time: crate::image::time(30, 7), record };
            update_case(name, device, words, &in_step(device, &older, found), new)
        };
        let up = ["head", IMAGE, "up"];
        // 102 segments take four sectors with a head of kind 16 and five with one of kind 17.
        for found in [with(PLAIN, 2), with(PLAIN, 102), with(PLAIN, 409)] {
            cases.push(head_case("head up", &up, &found, heads::up(&device, &found.record)));
        }
        for found in [with(Head::marked(128, 0), 2), with(Head::marked(128, 0), 102)] {
            cases.push(head_case("head back", &["head", IMAGE, "back"], &found, heads::back(&device, &found.record)));
        }
        let found = with(MARKED, 2);
        cases.push(head_case("mark", &["mark", IMAGE, "7"], &found, heads::mark(&device, &found.record, 7)));

        for (size, found) in [("small", &newer), ("large", &large)] {
            let stepped = in_step(device, &older, found);
            let torn_later = in_step(device, found, &stamped(&device, 5, 25, 0));
            for side in [FRONT, BACK] {
                let (kept, other) = (["front", "back"][side], 1 - side);
                let mut copies = stepped.clone();
                spoil_block(&mut copies, other);
                cases.push(mend_case(&format!("mend {size}, {kept} kept"), device, copies));
                let mut copies = torn_later.clone();
                tear(&mut copies, side, 1);
                spoil_block(&mut copies, other);
                cases.push(mend_case(&format!("mend {size}, {kept} kept, its later entry torn"), device, copies));
            }
        }
        let new = stamped(&device, 3, 30, 7);
        cases.push(mend_case("mend of an update that was cut", device, half_updated(device, &stepped, &new, 2)));
        let mut copies = torn_both(device, &older, &newer);
        cases.push(mend_case("mend, a later entry torn in both", device, copies.clone()));
        spoil_block(&mut copies, FRONT);
        cases.push(mend_case("mend, a later entry torn in the back", device, copies));

        let device = LARGE;
        let (older, newer, new) = (stamped(&device, 1, 10, 5), stamped(&device, 2, 20, 0), stamped(&device, 3, 30, 7));
        fs::write(self.bench.folder.join("record-large"), &new.record).expect("a record can be written");
        let stepped = in_step(device, &older, &newer);
        cases.push(update_case("update, another device", device, &["update", IMAGE, "record-large"], &stepped, new));
        let mut copies = stepped;
        spoil_block(&mut copies, FRONT);
        cases.push(mend_case("mend, another device", device, copies));
        cases
    }

    /// Not cut: a flush comes first, so that what was read has landed; then the stores are the rules' stores in their order,
    /// each group is flushed, and nothing that was not flushed is missed.
    fn whole(&mut self, case: &Case) {
        let settings = [TIME, ("SHIM_LOG", "log"), ("SHIM_CUT", PAST_THE_END), ("SHIM_KEEP", "none")];
        let run = self.run(case, &settings);
        let made: Vec<String> = run.log.iter().filter(|call| is_event(call)).map(told).collect();
        let wanted: Vec<String> = events(&case.stores)
            .iter()
            .map(|event| match event {
                Event::Write(i) => format!("write {}", case.stores[*i].sector),
                Event::First | Event::Flush(_) => "flush".to_string(),
            })
            .collect();
        if run.status != 0 {
            return self.fail("not cut: the status is not 0", case, &settings, &run);
        }
        if made != wanted {
            return self.fail("not cut: the stores and flushes are others", case, &settings, &run);
        }
        let mut after = case.before.clone();
        after.land(&case.device, &case.stores);
        if self.image.read() != after {
            self.fail("not cut: the drive's bytes are others", case, &settings, &run);
        }
    }

    fn cut_at(&mut self, case: &Case, events: &[Event], number: usize) {
        let group = match &events[number - 1] {
            Event::First => 0,
            Event::Write(i) => case.stores[*i].group,
            Event::Flush(group) => *group,
        };
        let held = held_at(case, events, number, group);
        for fate in self.fates(case, group, held) {
            self.cut(case, number, group, held, &fate);
        }
    }

    /// All kept, all lost, some kept by seeds; the sector being written torn or wild, or another one.
    fn fates(&self, case: &Case, group: u8, held: usize) -> Vec<Fate> {
        let fate = |keep: &str, wild: Option<String>| Fate { keep: keep.to_string(), wild };
        let mut fates = vec![fate("all", None), fate("none", None)];
        if held == 0 {
            return fates;
        }
        fates.push(fate("all", Some("last:torn".to_string())));
        fates.push(fate("none", Some("last:late".to_string())));
        for seed in 0..self.seeds {
            fates.push(fate("all", Some(format!("last:{}", 7 + seed))));
            if held > 1 {
                let keep = (2 * seed + 1).to_string();
                fates.push(fate(&keep, None));
                fates.push(fate(&keep, Some(format!("{}:{}", (seed + 1) as usize * held / 2 % held, 11 + seed))));
            }
        }
        let is_block = case
            .stores
            .iter()
            .any(|store| store.group == group && [1, case.device.sectors - 7].contains(&store.sector));
        if is_block {
            fates.push(fate("all", Some("last:./wild-other".to_string())));
            fates.push(fate("all", Some("last:./wild-late".to_string())));
        }
        fates
    }

    fn cut(&mut self, case: &Case, number: usize, group: u8, held: usize, fate: &Fate) {
        let number = number.to_string();
        let mut settings = vec![TIME, ("SHIM_CUT", number.as_str()), ("SHIM_KEEP", fate.keep.as_str())];
        if let Some(wild) = &fate.wild {
            settings.push(("SHIM_WILD", wild));
            if wild.contains('/') {
                self.wild_files(case);
            }
        }
        let run = self.run(case, &settings);
        self.counts.cuts += 1;
        if run.status != 99 {
            return self.fail("the process was not cut", case, &settings, &run);
        }
        let left = self.image.read();
        if let Err(what) = is_cut(case, &left, group, held, fate.wild.is_some()) {
            return self.fail(&what, case, &settings, &run);
        }
        if is_excused(case, &left, group) {
            self.counts.excused += 1;
            let find = self.bench.run(&["find", IMAGE], &[]);
            if find.status != 0 && find.status != 1 {
                self.fail("a wild block that is accepted: find answers neither 0 nor 1", case, &settings, &find);
            }
            return;
        }
        let promised = match &case.promise {
            Promise::Mend(found) => {
                self.counts.kept += 1;
                found.clone()
            }
            Promise::Update { old, new } => {
                let store = case.stores.iter().find(|store| store.sector == 1).expect("a store of the front block");
                if left.block_bytes(FRONT) == store.bytes {
                    self.counts.new += 1;
                    new.clone()
                } else {
                    self.counts.old += 1;
                    old.clone()
                }
            }
        };
        self.afterwards(case, &settings, &left, &promised);
    }

    /// What the command says after the cut, and that it can mend the drive.
    fn afterwards(&mut self, case: &Case, settings: &[(&str, &str)], left: &Copies, promised: &Stamped) {
        if left.newest().as_ref() != Ok(promised) {
            return self.fail_here(
                "after the cut: an independent discovery does not find what is promised",
                case,
                settings,
            );
        }
        let find = self.bench.run(&["find", IMAGE], &[]);
        if find.status != 0 || find.text() != format!("{}\n{}", left.line(), identity_lines(&identity(case.device))) {
            return self.fail(&format!("after the cut: find does not print '{}'", left.line()), case, settings, &find);
        }
        let stepped = left.pair().in_step();
        if stepped != find.err.is_empty() || !stepped && !find.err.contains("not in step") {
            self.fail("after the cut: find does not say whether the copies are in step", case, settings, &find);
        }
        let Some(left) = self.cut_mend(case, settings, left.clone(), promised) else {
            return;
        };
        let mend = self.bench.run(&["mend", IMAGE], &[]);
        let mut after = left.clone();
        let stores = left.mend_stores().expect("what is found can be mended");
        after.land(&case.device, &stores);
        if mend.status != 0 || mend.text() != mend_lines(&left, &stores, &after) {
            return self.fail("after the cut: mend", case, settings, &mend);
        }
        if self.image.read() != after {
            return self.fail("after the cut: mend left other bytes", case, settings, &mend);
        }
        let check = self.bench.run(&["check", IMAGE], &[]);
        if check.status != 0 || !check.text().contains("in step yes\n") {
            self.fail("after the mend: check", case, settings, &check);
        }
        let record = self.bench.run(&["record", IMAGE], &[]);
        if record.status != 0 || record.out != promised.record {
            self.fail("after the mend: record gives other bytes", case, settings, &record);
        }
        if !after.pair().in_step() || after.newest().as_ref() != Ok(promised) {
            self.fail_here("after the mend: not in step on the promised record", case, settings);
        }
    }

    /// The mend after the cut is cut too, now and then; find still says the same record. What that leaves, or nothing where it
    /// went wrong.
    fn cut_mend(&mut self, case: &Case, settings: &[(&str, &str)], left: Copies, promised: &Stamped) -> Option<Copies> {
        let stores = left.mend_stores().expect("what is found can be mended");
        let turn = self.counts.cuts;
        if stores.is_empty() || self.seeds == crate::SEEDS && !turn.is_multiple_of(4) {
            return Some(left);
        }
        let number = (1 + turn / 4 * 7 % events(&stores).len() as u64).to_string();
        let (keep, wild) = ((turn % 5).to_string(), format!("last:{turn}"));
        let mut again = vec![("SHIM_CUT", number.as_str()), ("SHIM_KEEP", keep.as_str())];
        if turn.is_multiple_of(3) {
            again.push(("SHIM_WILD", wild.as_str()));
        }
        let mend = self.bench.run(&["mend", IMAGE], &again);
        self.counts.again += 1;
        let left = self.image.read();
        let find = self.bench.run(&["find", IMAGE], &[]);
        let line = format!("{}\n{}", left.line(), identity_lines(&identity(case.device)));
        let same = left.newest().as_ref() == Ok(promised) && find.status == 0 && find.text() == line;
        if mend.status != 99 || !same {
            let what = format!("after the cut: a mend that was cut too, with {again:?}");
            self.fail(&what, case, settings, &find);
            return None;
        }
        Some(left)
    }

    /// Format of an empty drive: after a cut there is nothing to find, or the new record.
    fn format(&mut self) {
        let (pool, uuid) = (String::from_utf8_lossy(POOL), String::from_utf8_lossy(DEVICE));
        let words = ["format", IMAGE, "--pool", &pool, "--device", &uuid];
        let first = stamped(&SMALL, 0, 30, 7);
        let done = Copies::formatted(&identity(SMALL), &first).expect("a first record");
        self.fill(&words, &Copies::zero(), &done, &[first]);
    }

    /// Restoring an older backup over copies in step: after a cut there is the record before it, or the backup's.
    fn restore(&mut self) {
        let (older, newer) = (stamped(&SMALL, 1, 10, 5), stamped(&SMALL, 2, 20, 0));
        let saved = in_step(SMALL, &older, &newer);
        self.image.put(&saved);
        let backup = self.bench.run(&["backup", IMAGE, "saved"], &[]);
        if backup.status != 0 {
            return self.failures.add("a backup to restore", &["backup", IMAGE, "saved"], &[], Some(&backup));
        }
        let before = half_updated(SMALL, &saved, &stamped(&SMALL, 40, 25, 0), 4);
        let records = [before.newest(), saved.newest()].map(|record| record.expect("a record"));
        self.fill(&["restore", IMAGE, "saved"], &before, &saved, &records);
    }

    /// Cuts a word that stores both copies. Afterwards find says one of these records, or, where nothing was there before, that
    /// there is none.
    fn fill(&mut self, words: &[&str], before: &Copies, done: &Copies, records: &[Stamped]) {
        let settings = [TIME, ("SHIM_LOG", "log"), ("SHIM_CUT", PAST_THE_END), ("SHIM_KEEP", "none")];
        self.image.put(before);
        let run = self.bench.run(words, &settings);
        let events = run.log.iter().filter(|call| is_event(call)).count();
        if run.status != 0 || self.image.read() != *done {
            return self.failures.add(&format!("{}, not cut", words[0]), words, &settings, Some(&run));
        }
        let fates = [("all", None), ("none", None), ("3", None), ("all", Some("last:torn")), ("all", Some("last:9"))];
        for (number, (keep, wild)) in (1..=events).flat_map(|number| fates.map(|fate| (number, fate))) {
            let number = number.to_string();
            let mut settings = vec![TIME, ("SHIM_CUT", number.as_str()), ("SHIM_KEEP", keep)];
            settings.extend(wild.map(|wild| ("SHIM_WILD", wild)));
            self.image.put(before);
            let run = self.bench.run(words, &settings);
            self.counts.fills += 1;
            let left = self.image.read();
            let find = self.bench.run(&["find", IMAGE], &[]);
            let right = match left.newest() {
                Ok(found) => {
                    let text = format!("{}\n{}", left.line(), identity_lines(&identity(SMALL)));
                    records.contains(&found) && find.status == 0 && find.text() == text
                }
                Err(_) => before.found().is_err() && find.status == 1 && find.out.is_empty(),
            };
            self.counts.empty += u64::from(left.newest().is_err());
            if run.status != 99 || !right {
                self.failures.add(&format!("{} was cut: find", words[0]), words, &settings, Some(&find));
            }
        }
    }

    /// Blocks for a wild sector: the other copy's, and one with an entry that was never stored.
    fn wild_files(&self, case: &Case) {
        let write =
            |name: &str, bytes: &[u8]| fs::write(self.bench.folder.join(name), bytes).expect("a file can be written");
        let standing = [FRONT, BACK].into_iter().find_map(|side| case.before.block(side).ok()).expect("a block");
        let entries =
            [standing.entries[0], Entry { bytes: 9, crc: 9, ..Entry::of_record(b"x", crate::image::time(99, 0)) }];
        write("wild-late", &Block { entries, ..standing }.encode());
        write("wild-other", &Block { entries: [standing.entries[0], Entry::UNUSED], ..standing }.encode());
    }

    fn run(&mut self, case: &Case, settings: &[(&str, &str)]) -> Run {
        self.image.put(&case.before);
        let words: Vec<&str> = case.words.iter().map(String::as_str).collect();
        self.bench.run(&words, settings)
    }

    fn fail(&mut self, what: &str, case: &Case, settings: &[(&str, &str)], run: &Run) {
        let words: Vec<&str> = case.words.iter().map(String::as_str).collect();
        self.failures.add(&format!("{}: {what}", case.name), &words, settings, Some(run));
    }

    fn fail_here(&mut self, what: &str, case: &Case, settings: &[(&str, &str)]) {
        let words: Vec<&str> = case.words.iter().map(String::as_str).collect();
        self.failures.add(&format!("{}: {what}", case.name), &words, settings, None);
    }
}

fn update_case(name: &str, device: Device, words: &[&str], before: &Copies, new: Stamped) -> Case {
    let stores = before.update_stores(&new).expect("an update");
    let old = before.newest().expect("a record");
    let words = words.iter().map(|word| word.to_string()).collect();
    Case {
        name: name.to_string(),
        device,
        words,
        before: before.clone(),
        stores,
        promise: Promise::Update { old, new },
    }
}

fn mend_case(name: &str, device: Device, before: Copies) -> Case {
    let stores = before.mend_stores().expect("what is found can be mended");
    let found = before.newest().expect("a record");
    let words = vec!["mend".to_string(), IMAGE.to_string()];
    Case { name: name.to_string(), device, words, before, stores, promise: Promise::Mend(found) }
}

fn torn_both(device: Device, older: &Stamped, newer: &Stamped) -> Copies {
    let mut copies = in_step(device, older, newer);
    tear(&mut copies, FRONT, 1);
    tear(&mut copies, BACK, 1);
    copies
}

/// The writes in their order, with a flush before the first and after each group.
fn events(stores: &[Store]) -> Vec<Event> {
    let mut events = vec![Event::First];
    for (i, store) in stores.iter().enumerate() {
        events.push(Event::Write(i));
        if stores.get(i + 1).is_none_or(|next| next.group != store.group) {
            events.push(Event::Flush(store.group));
        }
    }
    events
}

/// How many sectors are held when power goes in an event.
fn held_at(case: &Case, events: &[Event], number: usize, group: u8) -> usize {
    let written = events[..number].iter().filter(|event| match event {
        Event::Write(i) => case.stores[*i].group == group,
        Event::First | Event::Flush(_) => false,
    });
    written.count()
}

fn is_event(call: &Call) -> bool {
    call.kind == "write" || call.kind == "flush"
}

fn told(call: &Call) -> String {
    match call.sector {
        Some(sector) => format!("{} {sector}", call.kind),
        None => call.kind.clone(),
    }
}

/// Earlier groups have landed whole, later ones have not begun; in the running group the sectors that were not reached are old,
/// and each other one is old or new, but for one that may be wild.
fn is_cut(case: &Case, left: &Copies, group: u8, held: usize, wild: bool) -> Result<(), String> {
    let mut base = case.before.clone();
    base.land(&case.device, case.stores.iter().filter(|store| store.group < group));
    let mut others = 0;
    let running = case.stores.iter().filter(|store| store.group == group);
    for store in running.clone().take(held) {
        let now = left.sector(&case.device, store.sector).expect("a sector of the copies");
        let old = base.sector(&case.device, store.sector).expect("a sector of the copies");
        others += u64::from(now != old && now != store.bytes);
    }
    let mut rest = left.clone();
    for store in running.take(held) {
        let mut old = [0; 512];
        old.copy_from_slice(base.sector(&case.device, store.sector).expect("a sector of the copies"));
        rest.put_sector(&case.device, store.sector, &old);
    }
    if rest != base {
        return Err("the cut: a sector outside the running group is not as it should be".to_string());
    }
    if others > u64::from(wild) {
        return Err(format!("the cut: {others} sectors are neither old nor new"));
    }
    Ok(())
}

/// The wild sector is a signature block, equals neither version and is accepted.
fn is_excused(case: &Case, left: &Copies, group: u8) -> bool {
    let mut base = case.before.clone();
    base.land(&case.device, case.stores.iter().filter(|store| store.group < group));
    case.stores.iter().filter(|store| store.group == group).any(|store| {
        let now = left.sector(&case.device, store.sector).expect("a sector of the copies");
        let old = base.sector(&case.device, store.sector).expect("a sector of the copies");
        let is_block = [FRONT, BACK].iter().any(|&side| case.device.block_sector(side) == store.sector);
        is_block && now != old && now != store.bytes && Block::read(now).is_ok()
    })
}

/// The lines that say whose pool it is.
pub fn identity_lines(identity: &Identity) -> String {
    let (pool, device) = (String::from_utf8_lossy(&identity.pool_uuid), String::from_utf8_lossy(&identity.device_uuid));
    let Device { sectors, metadata, reserved } = identity.device;
    format!("pool {pool}\ndevice {device}\nsectors {sectors} metadata {metadata} reserved {reserved}\n")
}

/// What mend prints.
pub fn mend_lines(before: &Copies, stores: &[Store], after: &Copies) -> String {
    if stores.is_empty() {
        return "in step: nothing to store\n".to_string();
    }
    let kept = before.found().expect("a record").side;
    let (kept, other) = (["front", "back"][kept], ["back", "front"][kept]);
    let found = found_line("found", &after.found().expect("a record"), None);
    let count = stores.len();
    format!("keeps {kept}, rewrites {other}, {count} stores\nmended: {count} stores\n{found}\n")
}
