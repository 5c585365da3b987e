//! Wrong answers that the comparison has to notice: runs `compare`, which lies beside this program and was built with it, once with right
//! answers and once with each wrong one. Prints a line for each; fails where a right one fails or a wrong one passes.
//!
//! No archive is needed: the independent implementation stands in the library's place.

use std::env;
use std::path::Path;
use std::process::{exit, Command};

use outside::wrong::{families, names, Named, VARIABLE};

const SEED: &str = "20261115";

/// How many failures a family of cases tells of: none where it passes.
fn failures(compare: &Path, family: &str, wrong: &str) -> usize {
    let run = Command::new(compare).args([SEED, family]).env(VARIABLE, wrong).output();
    let run = run.unwrap_or_else(|error| panic!("{}: {error}", compare.display()));
    let said = String::from_utf8_lossy(&run.stdout);
    let failures = said.lines().filter(|line| line.starts_with("FAILED ")).count();
    let status = if failures == 0 { 0 } else { 1 };
    assert_eq!(run.status.code(), Some(status), "{}: {}", compare.display(), String::from_utf8_lossy(&run.stderr));
    failures
}

fn main() {
    let compare = env::current_exe().expect("this program's path").with_file_name("compare");
    let mut wrong = 0;
    for family in families() {
        if failures(&compare, family, "") > 0 {
            println!("FAILED: right answers are taken for wrong by {family}");
            wrong += 1;
        }
    }
    let names = names();
    for Named { name, families } in &names {
        let passed: Vec<&str> =
            families.iter().copied().filter(|family| failures(&compare, family, name) == 0).collect();
        if passed.is_empty() {
            println!("noticed: {name}");
        } else {
            println!("FAILED: not noticed by {}: {name}", passed.join(", "));
            wrong += 1;
        }
    }
    println!("wrong: {} wrong answers, {wrong} failures", names.len());
    exit(i32::from(wrong > 0));
}
