//! Makes each call of the command fail in turn, once and for good, and holds what it then says and leaves to its description:
//!
//! - a call that is interrupted or short is tried again: all is as without the fault;
//! - any other failure: status 3, but for sectors that do not matter;
//! - after a write or a flush that failed nothing is stored;
//! - where standard output says `found`, an independent discovery finds the same in the drive's true bytes;
//! - a sector that matters and was not read: `perhaps`, or nothing is said, and nothing is stored;
//! - afterwards an update or a mend is as after a cut, and can be mended.

use std::fs;

use crate::command::{Bench, Call, Failures, Run, IMAGE};
use crate::cuts::identity_lines;
use crate::image::{found_line, place, Copies, Image, DEVICE, POOL};
use crate::model::block::Block;
use crate::model::discovery::is_whole;
use crate::model::layout::{AREA_OFFSET, BACK, BLOCK_OFFSET, COPY, FRONT, SECTOR};
use crate::random::COPIES;
use crate::states::{half_updated, in_step, spoil_block, stamped, tear, SMALL};

#[derive(Clone, Copy, PartialEq, Eq)]
enum Does {
    /// Reads and prints the dump's line.
    Find,
    /// Reads and prints something else.
    Read,
    /// An update, an allocation, a release, a change of the head or a mend: a cut in it leaves the old record or the new one.
    Change,
    /// Formats or restores.
    Fill,
}

struct Case {
    name: &'static str,
    words: Vec<String>,
    before: Copies,
    does: Does,
    /// Another file that the word reads or writes.
    file: Option<&'static str>,
}

/// One fault: the n-th call of a kind, how it fails, and whether all later ones do.
struct Fault {
    kind: &'static str,
    number: u64,
    how: &'static str,
    on: bool,
}

/// A run with a fault, beside the one without it.
struct Seen<'a> {
    case: &'a Case,
    plain: &'a Run,
    /// What the run without a fault left.
    done: &'a Copies,
    run: &'a Run,
    left: &'a Copies,
}

#[derive(Default)]
struct Counts {
    cases: u64,
    faults: u64,
    perhaps: u64,
    stopped: u64,
    mended: u64,
    files: u64,
    received: u64,
}

pub struct Faults<'a> {
    bench: &'a mut Bench,
    image: Image,
    every: bool,
    counts: Counts,
    pub failures: Failures,
}

const TIME: (&str, &str) = ("SHIM_TIME", "30.7");
const SAVED: &str = "saved";
const RECORD: &str = "record";

/// What is wrong, if anything is.
type Judged = Result<(), String>;

impl Case {
    fn replaces(&self) -> bool {
        self.words.last().is_some_and(|word| word == "replace")
    }
}

impl Fault {
    fn setting(&self) -> String {
        let Fault { kind, number, how, on } = self;
        format!("{kind}:{number}:{how}{}", if *on { ":on" } else { "" })
    }

    /// The call is tried again, so that all is as without the fault.
    fn is_tried_again(&self) -> bool {
        self.how == "EINTR" || self.how == "short"
    }
}

impl<'a> Faults<'a> {
    pub fn new(bench: &'a mut Bench, every: bool) -> Self {
        let image = Image::create(&bench.folder.join(IMAGE), SMALL).expect("an image can be made");
        Faults { bench, image, every, counts: Counts::default(), failures: Failures::default() }
    }

    pub fn all(&mut self) {
        for case in self.cases() {
            self.counts.cases += 1;
            self.case(&case);
        }
        self.receive();
        let c = &self.counts;
        println!("faults: {} cases, {} faults, {} runs of the command", c.cases, c.faults, self.bench.runs);
        println!("  said to be uncertain: {}, stopped before a store: {}", c.perhaps, c.stopped);
        println!("  mended afterwards: {}, faults of other files: {}", c.mended, c.files);
        println!("  faults of standard input and output in receive: {}", c.received);
        if [c.perhaps, c.stopped, c.mended, c.files, c.received].contains(&0) {
            self.failures.add("one of these was never reached", &[], &[], None);
        }
    }

    fn cases(&mut self) -> Vec<Case> {
        let device = SMALL;
        let (older, newer) = (stamped(&device, 1, 10, 5), stamped(&device, 2, 20, 0));
        let new = stamped(&device, 30, 30, 7);
        fs::write(self.bench.folder.join(RECORD), &new.record).expect("a record can be written");
        let stepped = in_step(device, &older, &newer);
        let half = half_updated(device, &stepped, &new, 2);
        let mut torn = stepped.clone();
        tear(&mut torn, FRONT, 1);
        tear(&mut torn, BACK, 1);
        let mut no_front = stepped.clone();
        spoil_block(&mut no_front, FRONT);
        let mut no_block = no_front.clone();
        spoil_block(&mut no_block, BACK);
        let (pool, uuid) = (String::from_utf8_lossy(POOL), String::from_utf8_lossy(DEVICE));
        let case = |name, words: &[&str], before: &Copies, does, file| Case {
            name,
            words: words.iter().map(|word| word.to_string()).collect(),
            before: before.clone(),
            does,
            file,
        };
        let find: &[&str] = &["find", IMAGE];
        let mut cases = vec![
            case("find", find, &stepped, Does::Find, None),
            case("find after a cut", find, &half, Does::Find, None),
            case("find with no front", find, &no_front, Does::Find, None),
            case("find with nothing", find, &no_block, Does::Find, None),
            case("check", &["check", IMAGE], &stepped, Does::Read, None),
            case("check after a cut", &["check", IMAGE], &half, Does::Read, None),
            case("show", &["show", IMAGE, "--plain"], &stepped, Does::Read, None),
            case("record", &["record", IMAGE], &stepped, Does::Read, None),
            case("dump", &["dump", IMAGE], &stepped, Does::Read, None),
            case("backup", &["backup", IMAGE, SAVED], &stepped, Does::Read, Some(SAVED)),
            case("update", &["update", IMAGE, RECORD], &stepped, Does::Change, Some(RECORD)),
            case("allocate", &["allocate", IMAGE, "2", "100"], &stepped, Does::Change, None),
            case("release", &["release", IMAGE, "1"], &stepped, Does::Change, None),
            case("head up", &["head", IMAGE, "up"], &stepped, Does::Change, None),
            case("mend after a cut", &["mend", IMAGE], &half, Does::Change, None),
            case("mend of torn entries", &["mend", IMAGE], &torn, Does::Change, None),
            case("mend with no front", &["mend", IMAGE], &no_front, Does::Change, None),
            case("format", &["format", IMAGE, "--pool", &pool, "--device", &uuid], &Copies::zero(), Does::Fill, None),
        ];
        let replace = ["format", IMAGE, "--pool", &pool, "--device", &uuid, "replace"];
        cases.push(case("format replace", &replace, &half, Does::Fill, None));
        cases.push(case("restore", &["restore", IMAGE, SAVED], &half, Does::Fill, Some(SAVED)));
        cases.push(case("restore replace", &["restore", IMAGE, SAVED, "replace"], &no_block, Does::Fill, None));
        self.image.put(&stepped);
        let saved = self.bench.run(&["backup", IMAGE, "saved-once"], &[]);
        if saved.status != 0 {
            self.failures.add("a backup to restore from", &["backup", IMAGE, "saved-once"], &[], Some(&saved));
        }
        cases
    }

    fn case(&mut self, case: &Case) {
        let settings = [TIME, ("SHIM_LOG", "log")];
        let plain = self.run(case, &settings);
        let done = self.image.read();
        if plain.status > 1 {
            return self.fail("without a fault", case, &settings, &plain);
        }
        if matches!(case.does, Does::Find | Does::Read) && plain.count("write") + plain.count("flush") > 0 {
            self.fail("a word that reads writes to the drive", case, &settings, &plain);
        }
        for fault in self.faults(case, &plain) {
            self.fault(case, &fault, &plain, &done);
        }
        if let Some(file) = case.file {
            self.file_faults(case, file, &plain, &done);
        }
    }

    fn faults(&self, case: &Case, plain: &Run) -> Vec<Fault> {
        let mut faults = Vec::new();
        let ways: [(&str, &[(&str, bool)]); 5] = [
            ("open", &[("EIO", false), ("EINTR", false)]),
            ("read", &[("EIO", false), ("EIO", true), ("short", false), ("EINTR", false)]),
            (
                "write",
                &[
                    ("EIO", false),
                    ("EIO", true),
                    ("ENOSPC", false),
                    ("ENOSPC", true),
                    ("short", false),
                    ("EINTR", false),
                ],
            ),
            ("flush", &[("EIO", false), ("EIO", true), ("ENOSPC", false)]),
            ("out", &[("EIO", false), ("ENOSPC", true), ("short", false), ("EINTR", false)]),
        ];
        for (kind, ways) in ways {
            for &(how, on) in ways {
                let tried_again = how == "short" || how == "EINTR";
                // Many reads are alike; unless every fault is asked for, those that are tried again are sampled.
                let step = if kind == "read" && tried_again && !self.every { 7 } else { 1 };
                let step = if case.does == Does::Fill && kind != "out" && !self.every { step.max(3) } else { step };
                let calls = plain.count(kind);
                faults.extend((1..=calls).step_by(step).map(|number| Fault { kind, number, how, on }));
                if tried_again {
                    faults.extend((calls > 0 && how == "short").then_some(Fault { kind, number: 1, how, on: true }));
                }
            }
        }
        faults
    }

    fn fault(&mut self, case: &Case, fault: &Fault, plain: &Run, done: &Copies) {
        let setting = fault.setting();
        let settings = [TIME, ("SHIM_LOG", "log"), ("SHIM_FAIL", setting.as_str())];
        let run = self.run(case, &settings);
        self.counts.faults += 1;
        let left = self.image.read();
        let seen = Seen { case, plain, done, run: &run, left: &left };
        let mut judged = self.judge(fault, &seen);
        let stopped = ["write", "flush"].contains(&fault.kind) && !fault.is_tried_again();
        if judged.is_ok() && case.does == Does::Change && stopped {
            judged = self.mends(&seen);
        }
        if let Err(what) = judged {
            self.fail(&what, case, &settings, &run);
        }
    }

    fn judge(&mut self, fault: &Fault, seen: &Seen) -> Judged {
        let Seen { case, plain, done, run, left } = seen;
        if self.image.length() != SMALL.sectors * SECTOR as u64 {
            return wrong("the image has another length");
        }
        let begins = |line: &str| [IMAGE, "amseokbin"].iter().any(|name| line.starts_with(&format!("{name}: ")));
        if !run.err.lines().all(begins) {
            return wrong("a line on standard error begins neither with the image nor with amseokbin");
        }
        nothing_stored_after(&run.log)?;
        if run.text().lines().any(|line| line.starts_with("found ") && line != left.line()) {
            return Err(format!("says found, and it is '{}'", left.line()));
        }
        let same = run.out == plain.out && run.status == plain.status && run.err == plain.err && left == done;
        match fault.kind {
            "open" if same && fault.how == "EINTR" => Ok(()),
            "open" => {
                let said = run.err.contains("Input/output error") || run.err.contains("Interrupted");
                let right = run.status == 3 && run.out.is_empty() && said && **left == case.before;
                right_or(right, "the drive cannot be opened: not status 3 with an error and nothing else")
            }
            _ if fault.is_tried_again() => right_or(same, "a call that is tried again changes what is said or left"),
            "read" => self.judge_read(seen),
            "write" | "flush" => judge_write(fault, run),
            _ => self.judge_out(seen),
        }
    }

    /// A write to standard output failed.
    fn judge_out(&mut self, seen: &Seen) -> Judged {
        let Seen { case, run, left, .. } = seen;
        if run.status != 3 || run.err.is_empty() {
            return wrong("standard output failed: not status 3 with an error");
        }
        let failed = run.log.iter().position(Call::stands).unwrap_or(0);
        let begun = run.log[..failed].iter().any(|call| call.kind == "write");
        self.counts.stopped += u64::from(!begun && case.does == Does::Change);
        right_or(begun || **left == case.before, "the first lines could not be printed, and something was stored")
    }

    /// Reads failed. A sector that another call has read may count as read or as unread.
    fn judge_read(&mut self, seen: &Seen) -> Judged {
        let log = &seen.run.log;
        let first_store = log.iter().position(|call| call.kind == "write");
        let (early, late) = log.split_at(first_store.unwrap_or(log.len()));
        let (never, once) = (never_read(early), failed_once(early));
        let judged = self.judge_unread(seen, &never, late);
        if judged.is_err() && never != once {
            return self.judge_unread(seen, &once, late);
        }
        judged
    }

    /// These sectors could not be read before the first store; `late` are the calls from there on.
    fn judge_unread(&mut self, seen: &Seen, unread: &[u64], late: &[Call]) -> Judged {
        let Seen { case, plain, run, left, .. } = seen;
        // To format without `replace`, every sector of the ends matters.
        let looks = case.words[0] == "format" && !case.replaces() && !unread.is_empty();
        let matters = looks || unread.iter().any(|&sector| matters(&case.before, sector));
        if case.does != Does::Fill && unread.iter().any(|sector| !said(&run.err, *sector)) {
            return wrong("a sector that could not be read is not named");
        }
        match case.does {
            Does::Read if case.words[0] == "backup" && !unread.is_empty() && !run.out.is_empty() => {
                let right = run.status == 3 && run.text() == format!("saved: {} sectors\n", 80 - unread.len());
                right_or(
                    right && run.err.contains("not in the backup"),
                    "a backup of a part: not status 3 with its count",
                )
            }
            Does::Find | Does::Read if !matters => {
                let same = match case.words[0].as_ref() {
                    "dump" => true,
                    // The area that it lies in is said to be unread, and all else is the same.
                    "check" => {
                        let known = |text: &str| text.replace(" whole ", " unread ").replace(" torn ", " unread ");
                        known(&run.text()) == known(&plain.text())
                    }
                    _ => run.out == plain.out,
                };
                let same = same && run.status == plain.status;
                right_or(same, "a sector that does not matter changes what is said")
            }
            Does::Find | Does::Read => {
                self.counts.perhaps += 1;
                judge_uncertain(case, run, &perhaps(&case.before, unread))
            }
            Does::Change | Does::Fill if late.is_empty() => {
                self.counts.stopped += 1;
                let said = ["not done", "refused", "cannot be read"].iter().any(|words| run.err.contains(words));
                let stopped = run.status == 3 && run.out.is_empty() && **left == case.before;
                right_or(matters, "a sector that does not matter stops it")?;
                right_or(
                    said && stopped,
                    "a sector that matters could not be read: not status 3 with nothing done and said",
                )
            }
            Does::Change | Does::Fill => {
                let may_store = !matters || case.replaces() || case.words[0] == "restore";
                right_or(may_store, "a sector that matters could not be read, and something was stored")?;
                judge_late(seen, late)
            }
        }
    }

    /// After a write or a flush that failed: the drive is as after a cut, and mend brings the copies in step.
    fn mends(&mut self, seen: &Seen) -> Judged {
        let Seen { case, done, left, .. } = seen;
        let is_new = case.words[0] != "mend" && left.block_bytes(FRONT) == done.block_bytes(FRONT);
        let promised = if is_new { done.newest() } else { case.before.newest() };
        right_or(left.newest() == promised, "afterwards: neither the old record nor the new one, by the front block")?;
        self.counts.mended += 1;
        let mend = self.bench.run(&["mend", IMAGE], &[]);
        let check = self.bench.run(&["check", IMAGE], &[]);
        let after = self.image.read();
        let right = mend.status == 0 && check.status == 0 && after.newest() == promised && after.pair().in_step();
        right_or(right, "afterwards: mend does not bring the copies in step on what was found")
    }

    /// The word's other file is the one whose calls fail.
    fn file_faults(&mut self, case: &Case, file: &'static str, plain: &Run, done: &Copies) {
        let settings = [TIME, ("SHIM_LOG", "log"), ("SHIM_IMAGE", file)];
        let counted = self.run(case, &settings);
        for (kind, how) in [
            ("open", "EIO"),
            ("read", "EIO"),
            ("write", "EIO"),
            ("write", "ENOSPC"),
            ("flush", "EIO"),
            ("write", "short"),
            ("read", "short"),
        ] {
            for number in 1..=counted.count(kind) {
                let setting = format!("{kind}:{number}:{how}");
                let settings = [TIME, ("SHIM_LOG", "log"), ("SHIM_IMAGE", file), ("SHIM_FAIL", setting.as_str())];
                let run = self.run(case, &settings);
                self.counts.files += 1;
                let left = self.image.read();
                let right = if how == "short" {
                    run.status == plain.status && run.out == plain.out && left == *done
                } else {
                    run.status == 3 && run.out.is_empty() && run.err.contains(file) && left == case.before
                };
                if !right {
                    self.fail(&format!("the file {file} fails"), case, &settings, &run);
                }
                if how != "short" && case.words[0] == "backup" && self.bench.folder.join(SAVED).exists() {
                    let restore = self.bench.run(&["restore", IMAGE, SAVED], &[]);
                    if restore.status == 0 && self.image.read() != case.before {
                        self.fail("a backup that failed can be restored", case, &settings, &restore);
                    }
                }
            }
        }
    }

    /// `receive both` of copies that are a file: each read and each write to standard output fails, is short or is interrupted.
    fn receive(&mut self) {
        let words = ["receive", "both"];
        let copies = in_step(SMALL, &stamped(&SMALL, 1, 10, 5), &stamped(&SMALL, 2, 20, 0));
        fs::write(self.bench.folder.join(COPIES), copies.0.concat()).expect("the copies can be written");
        let plain = self.bench.run_from(COPIES, &words, &[("SHIM_LOG", "log")]);
        if plain.status != 0 || !plain.err.is_empty() {
            return self.failures.add("receive without a fault", &words, &[], Some(&plain));
        }
        // What the reads before one have brought of the copies.
        let brought = |number: u64| plain.log.iter().filter(|call| call.kind == "read").take(number as usize - 1);
        for (kind, how, on) in [
            ("read", "EIO", ""),
            ("read", "EIO", ":on"),
            ("read", "short", ""),
            ("read", "short", ":on"),
            ("read", "EINTR", ""),
            ("out", "EIO", ""),
            ("out", "ENOSPC", ":on"),
            ("out", "short", ""),
            ("out", "EINTR", ""),
        ] {
            for number in 1..=plain.count(kind) {
                let setting = format!("{kind}:{number}:{how}{on}");
                let settings = [("SHIM_LOG", "log"), ("SHIM_FAIL", setting.as_str())];
                let run = self.bench.run_from(COPIES, &words, &settings);
                self.counts.received += 1;
                let bytes: usize = brought(number).map(|call| call.result.parse().unwrap_or(0)).sum();
                let right = match kind {
                    _ if how == "short" || how == "EINTR" => {
                        run.status == 0 && run.out == plain.out && run.err.is_empty()
                    }
                    "read" => {
                        let unread = ["front", "back"].into_iter().skip(bytes / COPY);
                        let right = unread.clone().all(|name| run.text().contains(&format!("{name} block unread\n")));
                        let said = run.err.starts_with("standard input: could not be read after ")
                            && run.err.ends_with(": Input/output error\n");
                        let whole = run.text().matches(" block accepted\n").count() + unread.count() == 2;
                        run.status == 3 && said && right && whole
                    }
                    _ => run.status == 3 && run.err.starts_with("amseokbin: standard output could not be written: "),
                };
                if !right {
                    self.failures.add("receive with a fault", &words, &settings, Some(&run));
                }
            }
        }
    }

    fn run(&mut self, case: &Case, settings: &[(&str, &str)]) -> Run {
        self.image.put(&case.before);
        let saved = self.bench.folder.join(SAVED);
        let _ = fs::remove_file(&saved);
        if case.words[0] == "restore" {
            let _ = fs::copy(self.bench.folder.join("saved-once"), &saved);
        }
        let words: Vec<&str> = case.words.iter().map(String::as_str).collect();
        self.bench.run(&words, settings)
    }

    fn fail(&mut self, what: &str, case: &Case, settings: &[(&str, &str)], run: &Run) {
        let words: Vec<&str> = case.words.iter().map(String::as_str).collect();
        self.failures.add(&format!("{}: {what}", case.name), &words, settings, Some(run));
    }
}

fn wrong(what: &str) -> Judged {
    Err(what.to_string())
}

fn right_or(right: bool, what: &str) -> Judged {
    if right {
        Ok(())
    } else {
        wrong(what)
    }
}

/// A sector that matters could not be read: what is said is uncertain.
fn judge_uncertain(case: &Case, run: &Run, wanted: &str) -> Judged {
    let (text, line) = (run.text(), wanted.lines().next().unwrap_or(""));
    let right = match case.words[0].as_str() {
        "find" => text == wanted && run.err.contains("may not be the newest"),
        "check" => text.contains(line),
        "show" => text.is_empty() || text.contains("sure=no\n"),
        "record" => run.out.is_empty() || run.err.contains("may not be the newest"),
        _ => text.is_empty(),
    };
    if run.status == 3 && right {
        Ok(())
    } else {
        Err(format!("a sector that matters could not be read: not status 3 with '{line}'"))
    }
}

/// What was stored is read back, and a read of it may have failed.
fn judge_late(seen: &Seen, late: &[Call]) -> Judged {
    let Seen { case, plain, done, run, left } = seen;
    right_or(left == done || case.words[0] == "restore", "what is stored is not what is stored without the fault")?;
    let unread = never_read(late);
    if unread.iter().any(|&sector| matters(left, sector)) {
        return right_or(run.status == 3, "reading back failed, and the status is not 3");
    }
    right_or(run.status == plain.status || !failed_once(late).is_empty(), "another status than without the fault")
}

/// A write or a flush failed.
fn judge_write(fault: &Fault, run: &Run) -> Judged {
    let Some(failed) = run.log.iter().find(|call| call.kind == fault.kind && call.stands()) else {
        return Err("the call did not fail".to_string());
    };
    let error = if fault.how == "ENOSPC" { "No space left on device" } else { "Input/output error" };
    let what = match failed.sector {
        Some(sector) => format!("{IMAGE}: sector {sector} could not be written: {error}; nothing was stored after it"),
        None => format!("{IMAGE}: could not be flushed: {error}; nothing was stored after it"),
    };
    if run.status != 3 {
        return Err("a write or a flush failed, and the status is not 3".to_string());
    }
    if !run.err.lines().any(|line| line == what) {
        return Err(format!("standard error does not say '{what}'"));
    }
    let claims = ["updated:", "mended:", "formatted:", "restored:"];
    if run.text().lines().any(|line| claims.iter().any(|claim| line.starts_with(claim))) {
        return Err("a write or a flush failed, and it says that it is done".to_string());
    }
    Ok(())
}

fn nothing_stored_after(log: &[Call]) -> Judged {
    let failed = log.iter().position(|call| ["write", "flush"].contains(&call.kind.as_str()) && call.stands());
    let after = failed.map_or(&[][..], |at| &log[at + 1..]);
    if after.iter().any(|call| call.kind == "write") {
        return Err("something was stored after a write or a flush that failed".to_string());
    }
    match log
        .iter()
        .find(|call| call.kind == "write" && call.sector.is_none_or(|sector| place(&SMALL, sector).is_none()))
    {
        Some(call) => Err(format!("a store outside the copies: {call:?}")),
        None => Ok(()),
    }
}

/// The sectors that a call could not read.
fn failed_once(log: &[Call]) -> Vec<u64> {
    let failed = log.iter().filter(|call| call.kind == "read" && call.stands());
    let mut sectors: Vec<u64> = failed.filter_map(|call| call.sector).collect();
    sectors.sort_unstable();
    sectors.dedup();
    sectors
}

/// The sectors that a call could not read, and no other call has read.
fn never_read(log: &[Call]) -> Vec<u64> {
    let read =
        |sector: u64| log.iter().any(|call| call.kind == "read" && !call.failed() && call.sector == Some(sector));
    failed_once(log).into_iter().filter(|&sector| !read(sector)).collect()
}

/// A line names the sector, alone or in a run of sectors.
fn said(err: &str, sector: u64) -> bool {
    err.lines().any(|line| {
        let words: Vec<&str> = line.split_whitespace().collect();
        let number = |i: usize| words.get(i).and_then(|word| word.trim_end_matches(':').parse::<u64>().ok());
        match (words.get(1), number(2), words.get(3), number(4)) {
            (Some(&"sector"), Some(n), ..) => n == sector,
            (Some(&"sectors"), Some(low), Some(&"to"), Some(high)) => (low..=high).contains(&sector),
            _ => false,
        }
    })
}

/// The entry of an area names the sector at an offset of its copy.
pub fn names(block: &Block, area: usize, at: usize) -> bool {
    let entry = &block.entries[area];
    entry.is_used() && at >= AREA_OFFSET[area] && at < AREA_OFFSET[area] + entry.bytes as usize
}

/// A block's sector; one that the later entry of an accepted block names; and, where its area is not whole, one that the other
/// entry names.
pub fn matters(copies: &Copies, sector: u64) -> bool {
    let Some((side, at)) = place(&SMALL, sector) else {
        return false;
    };
    if at == BLOCK_OFFSET {
        return true;
    }
    let Ok(block) = copies.block(side) else {
        return false;
    };
    let Some(later) = block.later_entry() else {
        return false;
    };
    let whole = is_whole(&copies.0[side], later, &block.entries[later]);
    names(&block, later, at) || (!whole && names(&block, 1 - later, at))
}

/// The copies as they are known where these sectors could not be read, and which blocks are not.
pub fn known(copies: &Copies, unread: &[u64]) -> (Copies, [bool; 2]) {
    let mut known = copies.clone();
    let mut blocks = [false; 2];
    for &sector in unread {
        let Some((side, at)) = place(&SMALL, sector) else {
            continue;
        };
        if at == BLOCK_OFFSET {
            blocks[side] = true;
            known.0[side][at..at + SECTOR].fill(0);
        } else if copies.block(side).is_ok_and(|block| names(&block, 0, at) || names(&block, 1, at)) {
            // An area with a part that is not known is not whole.
            known.0[side][at] ^= 0xFF;
        }
    }
    (known, blocks)
}

/// What find prints where these sectors could not be read.
pub fn perhaps(copies: &Copies, unread: &[u64]) -> String {
    let (known, blocks) = known(copies, unread);
    match known.found() {
        Err(_) => String::new(),
        Ok(found) => {
            let other = blocks[1 - found.side].then_some("unread");
            let identity = copies.block(found.side).expect("a block that was accepted").identity;
            format!("{}\n{}", found_line("perhaps", &found, other), identity_lines(&identity))
        }
    }
}
