//! Drives in random states, damaged and with sectors that cannot be read: what find, check, receive, show, mend and record say and
//! leave is held to an independent reading of the bytes.

use std::fs;

use crate::command::{Bench, Failures, Run, IMAGE};
use crate::cuts::{identity_lines, mend_lines};
use crate::faults::{known, matters, names, perhaps};
use crate::image::{place, time, Copies, Image, Stamped};
use crate::model::block::{put_entry, seal, Entry, Identity, Time};
use crate::model::discovery::is_whole;
use crate::model::layout::{AREA_OFFSET, BACK, FRONT, SECTOR};
use crate::model::record::{check_record, Head};
use crate::model::room::free_runs;
use crate::rng::Rng;
use crate::states::{half_updated, identity, record, MARKED, PLAIN, SMALL};

const SEED: u64 = 20_261_116;

/// The file that both copies' bytes are received from.
pub const COPIES: &str = "copies";

#[derive(Default)]
struct Counts {
    states: u64,
    found: u64,
    refused: u64,
    in_step: u64,
    mended: u64,
    unread: u64,
    unread_mended: u64,
    no_record: u64,
    received: u64,
}

pub struct Random<'a> {
    bench: &'a mut Bench,
    image: Image,
    counts: Counts,
    pub failures: Failures,
}

impl<'a> Random<'a> {
    pub fn new(bench: &'a mut Bench) -> Self {
        let image = Image::create(&bench.folder.join(IMAGE), SMALL).expect("an image can be made");
        Random { bench, image, counts: Counts::default(), failures: Failures::default() }
    }

    pub fn all(&mut self, states: u64) {
        for number in 0..states {
            self.state(number);
        }
        let c = &self.counts;
        println!("random: {} states, {} runs of the command", c.states, self.bench.runs);
        println!("  found {}, refused {}", c.found, c.refused);
        println!("  with a sector unread that matters {}, of which mended {}", c.unread, c.unread_mended);
        println!("  in step {}, mended {}, no segment record {}", c.in_step, c.mended, c.no_record);
        println!("  received, with nothing wrong {}", c.received);
        if [c.found, c.refused, c.unread, c.unread_mended, c.in_step, c.mended, c.no_record, c.received].contains(&0) {
            self.failures.add("one of these was never reached", &[], &[], None);
        }
    }

    /// One state, which `drive random 1 NUMBER` makes again.
    pub fn state(&mut self, number: u64) {
        let mut rng = Rng::of_case(SEED, 1, number);
        let copies = state(&mut rng);
        let unread = if rng.once_in(4) { unreadable(&mut rng) } else { Vec::new() };
        self.image.put(&copies);
        self.counts.states += 1;
        if let Err(what) = self.judge(&copies, &unread) {
            self.failures.add(&format!("{what}\n  run again: drive random 1 {number}"), &[], &[], None);
        }
    }

    fn judge(&mut self, copies: &Copies, unread: &[u64]) -> Result<(), String> {
        let uncertain = unread.iter().any(|&sector| matters(copies, sector));
        let list: Vec<String> = unread.iter().map(u64::to_string).collect();
        let list = list.join(",");
        let settings = [("SHIM_UNREADABLE", list.as_str())];
        self.find(copies, unread, uncertain, &settings)?;
        self.check(copies, unread, uncertain, &settings)?;
        self.receive(copies)?;
        if !uncertain && copies.found().is_ok() {
            self.show(copies, &settings)?;
        }
        self.mend(copies, uncertain, &settings)?;
        if uncertain {
            self.mend_unreadable(copies, unread, &settings)?;
        }
        Ok(())
    }

    fn find(
        &mut self,
        copies: &Copies,
        unread: &[u64],
        uncertain: bool,
        settings: &[(&str, &str)],
    ) -> Result<(), String> {
        let find = self.bench.run(&["find", IMAGE], settings);
        self.counts.unread += u64::from(uncertain);
        let found = copies.found();
        let (status, text) = match found {
            _ if uncertain => (3, perhaps(copies, unread)),
            Ok(found) => {
                let identity = copies.block(found.side).expect("a block that was accepted").identity;
                (0, format!("{}\n{}", copies.line(), identity_lines(&identity)))
            }
            Err(_) => (1, String::new()),
        };
        self.counts.found += u64::from(found.is_ok());
        self.counts.refused += u64::from(found.is_err());
        is(&find, status, &text, "find")?;
        match found {
            Err(refusal) if !uncertain => says(&find, &format!("refused {}: ", refusal.number())),
            _ => Ok(()),
        }
    }

    fn check(
        &mut self,
        copies: &Copies,
        unread: &[u64],
        uncertain: bool,
        settings: &[(&str, &str)],
    ) -> Result<(), String> {
        let check = self.bench.run(&["check", IMAGE], settings);
        let stepped = copies.pair().in_step();
        let accepted = copies.found().is_ok_and(|found| {
            let device = copies.block(found.side).expect("a block that was accepted").identity.device;
            check_record(&device, found.record([&copies.0[FRONT], &copies.0[BACK]])).is_ok()
        });
        let status = if uncertain { 3 } else { i32::from(!stepped || !accepted) };
        self.counts.in_step += u64::from(stepped);
        self.counts.no_record += u64::from(copies.found().is_ok() && !accepted);
        if check.status != status {
            return Err(format!("check answers {}, not {status}:\n{}{}", check.status, check.text(), check.err));
        }
        if uncertain {
            return Ok(());
        }
        prints(&check, &check_lines(copies, unread), "check")
    }

    /// The copies' bytes from standard input, in many pieces. Where nothing is wrong they are in step: no two records of one length and
    /// checksum come up.
    fn receive(&mut self, copies: &Copies) -> Result<(), String> {
        fs::write(self.bench.folder.join(COPIES), copies.0.concat()).expect("the copies can be written");
        let receive = self.bench.run_from(COPIES, &["receive", "both"], &[("SHIM_FAIL", "read:1:short:on")]);
        let stepped = copies.pair().in_step();
        self.counts.received += u64::from(stepped);
        if receive.status != i32::from(!stepped) || receive.err.is_empty() != stepped {
            return Err(format!("receive answers {}, in step {stepped}:\n{}", receive.status, receive.err));
        }
        prints(&receive, &receive_lines(copies), "receive")
    }

    fn show(&mut self, copies: &Copies, settings: &[(&str, &str)]) -> Result<(), String> {
        let show = self.bench.run(&["show", IMAGE, "--plain"], settings);
        let text = show_lines(copies);
        is(&show, i32::from(!text.contains("\nrecord=0\n")), &text, "show")
    }

    fn mend(&mut self, copies: &Copies, uncertain: bool, settings: &[(&str, &str)]) -> Result<(), String> {
        let mend = self.bench.run(&["mend", IMAGE], settings);
        let left = self.image.read();
        let stores = match copies.mend_stores() {
            Ok(stores) if !uncertain => stores,
            _ => {
                let nothing = uncertain && mend.text() == "in step: nothing to store\n";
                let text = if nothing { mend.text() } else { String::new() };
                is(&mend, if uncertain { 3 } else { 1 }, &text, "mend")?;
                return if left == *copies { Ok(()) } else { Err("mend refuses, and stores".to_string()) };
            }
        };
        let mut after = copies.clone();
        after.land(&SMALL, &stores);
        is(&mend, 0, &mend_lines(copies, &stores, &after), "mend")?;
        if left != after {
            return Err("mend left other bytes".to_string());
        }
        self.counts.mended += u64::from(!stores.is_empty());
        let newest = copies.newest().expect("what was mended was found");
        let record = self.bench.run(&["record", IMAGE], &[]);
        if record.status != 0 || record.out != newest.record || !after.pair().in_step() || after.newest() != Ok(newest)
        {
            return Err("after the mend: not in step on the record that was found".to_string());
        }
        Ok(())
    }

    /// `mend IMAGE unreadable`: only where nothing that matters is unread in the copy that is kept; the other is rewritten.
    fn mend_unreadable(&mut self, copies: &Copies, unread: &[u64], settings: &[(&str, &str)]) -> Result<(), String> {
        let mend = self.bench.run(&["mend", IMAGE, "unreadable"], settings);
        let left = self.image.read();
        let (known, _) = known(copies, unread);
        let kept = known.found().ok().map(|found| found.side);
        let in_kept = |sector: u64| place(&SMALL, sector).map(|(side, _)| side) == kept && matters(copies, sector);
        let stores = known.mend_stores().unwrap_or_default();
        if kept.is_none() || stores.is_empty() || unread.iter().any(|&sector| in_kept(sector)) {
            let right = mend.status == 3 && left == *copies;
            return if right { Ok(()) } else { Err(format!("mend unreadable goes on:\n{}{}", mend.text(), mend.err)) };
        }
        let mut after = copies.clone();
        after.land(&SMALL, &stores);
        self.counts.unread_mended += 1;
        // What of the other copy was not stored to may still be unread.
        let first = mend_lines(&known, &stores, &after);
        let first = first.lines().next().unwrap_or("");
        if left == after && mend.text().starts_with(first) && mend.status != 1 {
            return Ok(());
        }
        Err(format!("mend unreadable: not '{first}' and its stores:\n{}{}", mend.text(), mend.err))
    }
}

/// What receive prints; a line that ends with a star may go on.
fn receive_lines(copies: &Copies) -> Vec<String> {
    let mut lines = Vec::new();
    for side in [FRONT, BACK] {
        let name = ["front", "back"][side];
        let Ok(block) = copies.block(side) else {
            let number = copies.block(side).err().map_or(0, |refusal| refusal.number());
            lines.push(format!("{name} block refused {number}: *"));
            lines.extend(["a", "b", "present"].map(|part| format!("{name} {part} unknown")));
            continue;
        };
        lines.push(format!("{name} block accepted"));
        lines.extend(identity_lines(&block.identity).lines().map(|line| format!("{name} {line}")));
        let whole = [0, 1].map(|area| is_whole(&copies.0[side], area, &block.entries[area]));
        let later = block.later_entry().unwrap_or(0);
        let present = [later, 1 - later].into_iter().find(|&area| whole[area]);
        for (area, entry) in block.entries.iter().enumerate() {
            let newer = present.is_some_and(|present| entry.time > block.entries[present].time);
            let what = match (entry.is_used(), whole[area], newer) {
                (false, ..) => "unused".to_string(),
                (_, true, _) => format!("whole {}", holding(entry)),
                (_, _, true) => format!("torn {}, later than what is found", holding(entry)),
                _ => format!("torn {}", holding(entry)),
            };
            lines.push(format!("{name} {} {what}", ["a", "b"][area]));
        }
        let what = |area: usize| format!("{} {}", ["a", "b"][area], holding(&block.entries[area]));
        lines.push(format!("{name} present {}", present.map_or("none".to_string(), what)));
    }
    lines
}

/// What is said of a used entry.
fn holding(entry: &Entry) -> String {
    format!("{} bytes {}", entry.bytes, date(entry.time))
}

/// What check prints where these sectors could not be read, none of which matters; a line that ends with a star may go on.
fn check_lines(copies: &Copies, unread: &[u64]) -> Vec<String> {
    let found = copies.found();
    let mut lines = Vec::new();
    for side in [FRONT, BACK] {
        let name = ["front", "back"][side];
        match copies.block(side) {
            Err(refusal) => {
                lines.push(format!("{name} block refused {}: *", refusal.number()));
                lines.extend(["a", "b"].map(|area| format!("{name} {area} unknown")));
            }
            Ok(block) => {
                lines.push(format!("{name} block accepted"));
                for (area, entry) in block.entries.iter().enumerate() {
                    let in_area = |sector: &u64| {
                        place(&SMALL, *sector).is_some_and(|(of, at)| of == side && names(&block, area, at))
                    };
                    let what = if !entry.is_used() {
                        "unused".to_string()
                    } else if unread.iter().any(in_area) {
                        format!("unread {} bytes {}", entry.bytes, date(entry.time))
                    } else if is_whole(&copies.0[side], area, entry) {
                        format!("whole {} bytes {}", entry.bytes, date(entry.time))
                    } else {
                        let later = found.is_ok_and(|found| entry.time > found.time);
                        let later = if later { ", later than what is found" } else { "" };
                        format!("torn {} bytes {}{later}", entry.bytes, date(entry.time))
                    };
                    lines.push(format!("{name} {} {what}", ["a", "b"][area]));
                }
            }
        }
    }
    match found {
        Err(refusal) => {
            lines.push("in step no".to_string());
            lines.push(format!("mend refused {}: *", refusal.number()));
        }
        Ok(found) => {
            let device = copies.block(found.side).expect("a block that was accepted").identity.device;
            lines.push(copies.line());
            match check_record(&device, found.record([&copies.0[FRONT], &copies.0[BACK]])) {
                Ok((record, _)) => {
                    lines.push(format!("record accepted, {} segments", record.count()));
                    lines.push(format!("head {}", head_words(&record.head)));
                }
                Err(refusal) => lines.push(format!("record refused {}: *", refusal.number())),
            }
            lines.push(format!("in step {}", if copies.pair().in_step() { "yes" } else { "no" }));
            let stores = copies.mend_stores().expect("what is found can be mended");
            let plan = mend_lines(copies, &stores, copies);
            lines.push(match stores.len() {
                0 => "mend nothing to store".to_string(),
                _ => format!("mend {}", plan.lines().next().unwrap_or("")),
            });
        }
    }
    lines
}

/// What is said of a head.
fn head_words(head: &Head) -> String {
    match head.low_water {
        None => "kind 16".to_string(),
        Some(1) => "kind 17, low water mark 1 block".to_string(),
        Some(mark) => format!("kind 17, low water mark {mark} blocks"),
    }
}

/// What show --plain prints of what is found.
fn show_lines(copies: &Copies) -> String {
    let found = copies.found().expect("a record that is found");
    let Identity { device, pool_uuid, device_uuid } = copies.block(found.side).expect("a block").identity;
    let mut lines = Vec::new();
    let mut add = |key: &str, value: String| lines.push(format!("{key}={value}\n"));
    add("pool", String::from_utf8_lossy(&pool_uuid).into_owned());
    add("device", String::from_utf8_lossy(&device_uuid).into_owned());
    add("sectors", device.sectors.to_string());
    add("metadata", device.metadata.to_string());
    add("reserved", device.reserved.to_string());
    add("found", ["front", "back"][found.side].to_string());
    add("area", ["a", "b"][found.area].to_string());
    add("bytes", found.bytes.to_string());
    add("seconds", found.time.seconds.to_string());
    add("nanoseconds", found.time.nanoseconds.to_string());
    add("other", found.other.map_or("both".to_string(), |refusal| refusal.number().to_string()));
    add("in-step", if copies.pair().in_step() { "yes" } else { "no" }.to_string());
    add("sure", "yes".to_string());
    let record = check_record(&device, found.record([&copies.0[FRONT], &copies.0[BACK]]));
    add("record", record.as_ref().err().map_or(0, |refusal| refusal.number()).to_string());
    if let Ok((record, spans)) = record {
        add("head", record.head.kind().to_string());
        add("block-size", record.head.block_size.to_string());
        if let Some(mark) = record.head.low_water {
            add("low-water", mark.to_string());
        }
        add("segments", record.count().to_string());
        for (i, segment) in record.segments().enumerate() {
            add(&format!("segment.{i}.kind"), segment.kind.to_string());
            add(&format!("segment.{i}.start"), segment.start.to_string());
            add(&format!("segment.{i}.sectors"), segment.length.to_string());
        }
        let runs: Vec<_> = free_runs(&device, spans.as_slice()).collect();
        add("allocated", record.segments().map(|segment| segment.length).sum::<u64>().to_string());
        add("free-runs", runs.len().to_string());
        add("free", runs.iter().map(|run| run.length).sum::<u64>().to_string());
        for (i, run) in runs.iter().enumerate() {
            add(&format!("free.{i}.start"), run.start.to_string());
            add(&format!("free.{i}.sectors"), run.length.to_string());
        }
    }
    lines.concat()
}

/// A time as a date; after the year 9999 in seconds.
fn date(time: Time) -> String {
    let Time { seconds, nanoseconds } = time;
    if seconds > 253_402_300_799 {
        return format!("{seconds}.{nanoseconds:09} s");
    }
    let is_leap = |year: u64| year.is_multiple_of(4) && (!year.is_multiple_of(100) || year.is_multiple_of(400));
    let (mut year, mut day) = (1970, seconds / 86_400);
    while day >= 365 + u64::from(is_leap(year)) {
        day -= 365 + u64::from(is_leap(year));
        year += 1;
    }
    let mut month = 0;
    let february = 28 + u64::from(is_leap(year));
    let months = [31, february, 31, 30, 31, 30, 31, 31, 30, 31, 30, 31];
    while day >= months[month] {
        day -= months[month];
        month += 1;
    }
    let (month, day) = (month + 1, day + 1);
    let (hour, minute, second) = (seconds / 3_600 % 24, seconds / 60 % 60, seconds % 60);
    format!("{year:04}-{month:02}-{day:02} {hour:02}:{minute:02}:{second:02}.{nanoseconds:09} UTC")
}

fn is(run: &Run, status: i32, text: &str, word: &str) -> Result<(), String> {
    if run.status == status && run.text() == text {
        return Ok(());
    }
    Err(format!("{word}: not status {status} with\n{text}but status {} with\n{}{}", run.status, run.text(), run.err))
}

/// A wanted line that ends with a star may go on.
fn prints(run: &Run, wanted: &[String], word: &str) -> Result<(), String> {
    let text = run.text();
    let lines: Vec<&str> = text.lines().collect();
    let same = |line: &str, wanted: &str| match wanted.strip_suffix('*') {
        Some(start) => line.starts_with(start) && line.len() > start.len(),
        None => line == wanted,
    };
    if lines.len() == wanted.len() && lines.iter().zip(wanted).all(|(line, wanted)| same(line, wanted)) {
        return Ok(());
    }
    Err(format!("{word} does not print\n{}\nbut\n{text}", wanted.join("\n")))
}

fn says(run: &Run, words: &str) -> Result<(), String> {
    if run.err.contains(words) {
        Ok(())
    } else {
        Err(format!("standard error does not say '{words}':\n{}", run.err))
    }
}

/// Most often a time out of few, so that equal ones and ones that differ by nanoseconds come up.
fn any_time(rng: &mut Rng) -> Time {
    let seconds = match rng.below(8) {
        0 => rng.below(300_000_000_000),
        _ => rng.within(10, 12),
    };
    time(seconds, rng.one_of(&[0, 1, 2, 999_999_999]))
}

/// Of either kind, most often of kind 16.
fn any_head(rng: &mut Rng) -> Head {
    match rng.below(6) {
        0 => MARKED,
        1 => Head::marked(128, rng.one_of(&[0, 1, u32::MAX])),
        _ => PLAIN,
    }
}

/// A record of a sector or of several, or bytes that are none.
fn any_record(rng: &mut Rng) -> Vec<u8> {
    let count = rng.one_of(&[0, 1, 2, 25, 26, 100, 409]);
    match rng.below(6) {
        0 => {
            let length = rng.one_of(&[1, 8, 511, 512, 513, 8191, 8192]);
            rng.bytes(length)
        }
        _ => record(any_head(rng), &SMALL, count),
    }
}

fn any_stamped(rng: &mut Rng) -> Stamped {
    Stamped { time: any_time(rng), record: any_record(rng) }
}

/// A drive whose copies lie where the image's length says: no accepted block has another S or L.
fn state(rng: &mut Rng) -> Copies {
    loop {
        let copies = any_state(rng);
        let elsewhere = |side| {
            let device = copies.block(side).map(|block| block.identity.device);
            device.is_ok_and(|device| (device.sectors, device.metadata) != (SMALL.sectors, SMALL.metadata))
        };
        if !elsewhere(FRONT) && !elsewhere(BACK) {
            return copies;
        }
    }
}

/// In step, in the middle of an update, or with any entries; then up to three damages.
fn any_state(rng: &mut Rng) -> Copies {
    let first = Stamped { time: any_time(rng), record: record(any_head(rng), &SMALL, rng.within(0, 3)) };
    let mut copies = Copies::formatted(&identity(SMALL), &first).expect("a first record");
    match rng.below(3) {
        0 => {
            let record = record(any_head(rng), &SMALL, rng.within(0, 60));
            let new = Stamped { time: time(400_000_000_000, 0), record };
            copies = half_updated(SMALL, &copies, &new, rng.within(0, 4) as u8);
        }
        1 => {
            for side in [FRONT, BACK] {
                for area in [0, 1] {
                    if rng.coin() {
                        copies.lay(side, area, &any_stamped(rng));
                    }
                }
            }
        }
        _ => {
            let stamped = any_stamped(rng);
            let areas = [rng.index(2), rng.index(2)];
            copies.lay(FRONT, areas[0], &stamped);
            copies.lay(BACK, areas[1], &stamped);
        }
    }
    for _ in 0..rng.below(4) {
        damage(rng, &mut copies);
    }
    copies
}

fn damage(rng: &mut Rng, copies: &mut Copies) {
    let side = rng.index(2);
    let mut block = copies.block_bytes(side);
    match rng.below(7) {
        0 => block[rng.index(SECTOR)] ^= 1 << rng.below(8),
        1 => put_entry(&mut block, rng.index(2), &Entry::UNUSED),
        2 => {
            let entry = Entry { time: any_time(rng), bytes: rng.within(0, 8193) as u32, crc: rng.next() as u32 };
            put_entry(&mut block, rng.index(2), &entry);
        }
        // A field that is not allowed, or another identity.
        3 => {
            let offset = rng.one_of(&[4, 28, 32, 64, 104, 116, 148, 165, 166, 200, 511]);
            block[offset] = rng.one_of(&[0, 1, b'A', b'0', 255]);
            seal(&mut block);
        }
        4 => {
            let at = AREA_OFFSET[rng.index(2)] + rng.one_of(&[0, 3, 27, 28, 511, 512, 8191]);
            copies.0[side][at] ^= 1 << rng.below(8);
        }
        5 => {
            let at = AREA_OFFSET[rng.index(2)];
            copies.0[side][at..at + SECTOR].fill(0);
        }
        // Header sectors other than the block are ignored.
        _ => {
            let at = rng.one_of(&[0, 2 * SECTOR, 7 * SECTOR]);
            copies.0[side][at] ^= 0xFF;
        }
    }
    if block != copies.block_bytes(side) {
        copies.put_block(side, &block);
    }
}

/// One to three sectors of the copies.
fn unreadable(rng: &mut Rng) -> Vec<u64> {
    let count = rng.within(1, 3);
    let mut sectors: Vec<u64> = (0..count)
        .map(|_| {
            let sectors = SMALL.copy_sectors(rng.index(2));
            let i = rng.one_of(&[0, 1, 1, 1, 7, 8, 9, 23, 24, 25, 39]);
            sectors[i]
        })
        .collect();
    sectors.sort_unstable();
    sectors.dedup();
    sectors
}
