//! Compares the library with an independent implementation, call by call.
//!
//! compare                     runs all families with the fixed seed
//! compare SEED                runs all families with another seed
//! compare SEED FAMILY         runs one family
//! compare SEED FAMILY CASE    runs one case again, and shows what was lent where it fails

mod applying;
mod blocks;
mod checksums;
mod clashes;
mod copies;
mod edges;
mod examples;
mod expected;
mod formats;
mod heads;
mod marks;
mod pieces;
mod plans;
mod readings;
mod records;
mod run;
mod segments;
mod sweeps;
mod updates;
mod walks;
mod words;
mod zeros;

use std::env;
use std::process::exit;

use outside::rng::Rng;
use run::Run;

const SEED: u64 = 20_261_115;

/// A family of cases: its name, its number of cases, and the function that runs one.
type Family = (&'static str, u64, fn(&mut Run, &mut Rng, u64));

const FAMILIES: &[Family] = &[
    ("examples", 1, examples::case),
    ("checksums", 4_000, checksums::case),
    ("sweeps", sweeps::CASES, sweeps::case),
    ("blocks", 60_000, blocks::case),
    ("copies", 30_000, copies::case),
    ("updates", 16_000, updates::case),
    ("applying", 3_000, applying::case),
    ("formats", 20_000, formats::case),
    ("records", 12_000, records::case),
    ("segments", 2_000, segments::case),
    ("walks", 1_000, walks::case),
    ("edges", 2_000, edges::case),
    ("words", words::CASES, words::case),
    ("clashes", 6_800, clashes::case),
    ("overlaps", clashes::OVERLAPS, clashes::overlaps),
    ("clash-edges", 340, edges::clashes),
    ("zeros", 9_000, zeros::case),
    ("heads", 5_400, heads::case),
    ("pieces", 1_500, pieces::case),
];

fn main() {
    let arguments: Vec<String> = env::args().skip(1).collect();
    let number = |text: &String| text.parse::<u64>().unwrap_or_else(|_| usage());
    let seed = arguments.first().map_or(SEED, number);
    let family = arguments.get(1);
    let only = arguments.get(2).map(number);
    if arguments.len() > 3 || family.is_some_and(|name| FAMILIES.iter().all(|f| f.0 != name)) {
        usage();
    }
    let mut run = Run::new(seed, family.is_some());
    for (index, (name, cases, case)) in (0..).zip(FAMILIES) {
        if family.is_some_and(|chosen| chosen != name) {
            continue;
        }
        let range = only.map_or(0..*cases, |number| number..number + 1);
        for number in range {
            let mut rng = run.begin(name, index, number);
            case(&mut run, &mut rng, number);
        }
    }
    run.finish();
}

fn usage() -> ! {
    let names: Vec<&str> = FAMILIES.iter().map(|family| family.0).collect();
    eprintln!("usage: compare [SEED [FAMILY [CASE]]]");
    eprintln!("families: {}", names.join(", "));
    exit(2);
}
