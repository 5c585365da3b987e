//! Tests of the command amseokbin on a drive that fails: power cut at every store, and every call failing in turn. Also makes
//! images for the other tests. The command and the shim are those of target/, or those that AMSEOKBIN and SHIM name.

mod command;
mod cuts;
mod faults;
mod image;
mod make;
#[allow(dead_code)]
mod model;
mod random;
#[allow(dead_code)]
#[path = "../../outside/src/rng.rs"]
mod rng;
mod states;

use std::env;
use std::fs;
use std::path::PathBuf;
use std::process::{exit, id};
use std::time::Instant;

use command::Bench;

/// The seeds of the gate.
pub const SEEDS: u64 = 2;

/// The random states of the gate.
const STATES: u64 = 600;

fn main() {
    let arguments: Vec<String> = env::args().skip(1).collect();
    let words: Vec<&str> = arguments.iter().map(String::as_str).collect();
    let failures = match words[..] {
        ["cuts"] => cuts(SEEDS),
        ["cuts", seeds] => cuts(number(seeds)),
        ["faults"] => faults(false),
        ["faults", "all"] => faults(true),
        ["random"] => random(STATES, None),
        ["random", states] => random(number(states), None),
        ["random", "1", state] => random(1, Some(number(state))),
        _ => match make::word(&words) {
            Some(Ok(())) => 0,
            Some(Err(error)) => {
                eprintln!("drive: {error}");
                exit(1);
            }
            None => usage(),
        },
    };
    if failures > 0 {
        exit(1);
    }
}

fn usage() -> ! {
    eprintln!(
        "drive cuts [SEEDS]        cuts power; more seeds take longer\ndrive faults [all]        makes calls fail\ndrive random [STATES]     random states of the drive\n{}",
        make::USAGE
    );
    exit(2);
}

fn number(text: &str) -> u64 {
    text.parse().unwrap_or_else(|_| usage())
}

/// A folder of its own, which is removed afterwards.
fn in_folder(work: impl FnOnce(&mut Bench) -> u64) -> u64 {
    let folder: PathBuf = env::temp_dir().join(format!("amseokbin-drive-{}", id()));
    fs::create_dir_all(&folder).unwrap_or_else(|error| {
        eprintln!("drive: {}: {error}", folder.display());
        exit(2);
    });
    let start = Instant::now();
    let mut bench = Bench::new(&folder);
    let failures = work(&mut bench);
    let _ = fs::remove_dir_all(&folder);
    println!("  {failures} failures, {:.1} s", start.elapsed().as_secs_f64());
    failures
}

fn cuts(seeds: u64) -> u64 {
    in_folder(|bench| {
        let mut cuts = cuts::Cuts::new(bench, seeds);
        cuts.all();
        cuts.failures.tell();
        cuts.failures.count
    })
}

fn faults(all: bool) -> u64 {
    in_folder(|bench| {
        let mut faults = faults::Faults::new(bench, all);
        faults.all();
        faults.failures.tell();
        faults.failures.count
    })
}

/// Many states, or one of them again.
fn random(states: u64, only: Option<u64>) -> u64 {
    in_folder(|bench| {
        let mut random = random::Random::new(bench);
        match only {
            Some(state) => random.state(state),
            None => random.all(states),
        }
        random.failures.tell();
        random.failures.count
    })
}
