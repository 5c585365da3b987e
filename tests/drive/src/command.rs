//! Runs the command under the shim.

use std::collections::BTreeMap;
use std::env;
use std::fs::{self, File};
use std::path::{Path, PathBuf};
use std::process::{exit, Command, Stdio};

/// Where the command and the shim are, and the folder that the command runs in.
pub struct Bench {
    program: PathBuf,
    shim: PathBuf,
    pub folder: PathBuf,
    pub runs: u64,
}

/// A line of the shim's log.
#[derive(Clone, Debug)]
pub struct Call {
    pub kind: String,
    pub sector: Option<u64>,
    pub result: String,
}

impl Call {
    pub fn failed(&self) -> bool {
        self.result.starts_with('E')
    }

    /// EINTR is tried again; any other error stands.
    pub fn stands(&self) -> bool {
        self.failed() && self.result != "EINTR"
    }
}

/// What a run did.
#[derive(Clone)]
pub struct Run {
    pub status: i32,
    pub out: Vec<u8>,
    pub err: String,
    pub log: Vec<Call>,
}

impl Run {
    pub fn text(&self) -> String {
        String::from_utf8_lossy(&self.out).into_owned()
    }

    pub fn count(&self, kind: &str) -> u64 {
        self.log.iter().filter(|call| call.kind == kind).count() as u64
    }
}

/// The image's name in the folder that the command runs in.
pub const IMAGE: &str = "pool.img";

impl Bench {
    /// AMSEOKBIN and SHIM name the command and the shim; otherwise they are those of target/.
    pub fn new(folder: &Path) -> Self {
        let named = |name: &str, default: &str| {
            let path = PathBuf::from(env::var_os(name).unwrap_or_else(|| default.into()));
            fs::canonicalize(&path).unwrap_or_else(|error| {
                eprintln!("drive: {}: {error}; {name} names another place", path.display());
                exit(2);
            })
        };
        let program = named("AMSEOKBIN", "target/amseokbin");
        let shim = named("SHIM", "target/shim.so");
        Bench { program, shim, folder: folder.to_path_buf(), runs: 0 }
    }

    /// Runs the command with these words and these settings of the shim, with IMAGE as the drive unless a setting says
    /// otherwise.
    pub fn run(&mut self, words: &[&str], settings: &[(&str, &str)]) -> Run {
        self.run_on(Stdio::null(), words, settings)
    }

    /// The same of a file as standard input, which is then what fails.
    pub fn run_from(&mut self, file: &str, words: &[&str], settings: &[(&str, &str)]) -> Run {
        let input = File::open(self.folder.join(file)).expect("a file that was written");
        let settings: Vec<(&str, &str)> = [("SHIM_IMAGE", file)].into_iter().chain(settings.iter().copied()).collect();
        self.run_on(input.into(), words, &settings)
    }

    fn run_on(&mut self, input: Stdio, words: &[&str], settings: &[(&str, &str)]) -> Run {
        self.runs += 1;
        let log = self.folder.join("log");
        let _ = fs::remove_file(&log);
        let mut command = Command::new(&self.program);
        command.args(words).current_dir(&self.folder).stdin(input);
        command.env("LD_PRELOAD", &self.shim).env("SHIM_IMAGE", IMAGE);
        command.envs(settings.iter().copied());
        let output = command.output().unwrap_or_else(|error| {
            eprintln!("drive: {}: {error}", self.program.display());
            exit(2);
        });
        let lines = fs::read_to_string(&log).unwrap_or_default();
        Run {
            status: output.status.code().unwrap_or(-1),
            out: output.stdout,
            err: String::from_utf8_lossy(&output.stderr).into_owned(),
            log: lines.lines().map(call).collect(),
        }
    }
}

fn call(line: &str) -> Call {
    let mut fields = line.split(' ');
    let mut next = || fields.next().unwrap_or("-");
    let (kind, _number, sector, _bytes, result) = (next(), next(), next(), next(), next());
    Call {
        kind: kind.to_string(),
        // A call that begins within a sector is logged as sector+byte.
        sector: sector.split('+').next().and_then(|sector| sector.parse().ok()),
        result: result.to_string(),
    }
}

/// How many failures of one kind are told in full.
const TOLD: u64 = 2;

/// Failures, told as they come.
#[derive(Default)]
pub struct Failures {
    pub count: u64,
    kinds: BTreeMap<String, u64>,
}

impl Failures {
    /// Prints what went wrong, with the words that run it again.
    pub fn add(&mut self, what: &str, words: &[&str], settings: &[(&str, &str)], run: Option<&Run>) {
        self.count += 1;
        let first = what.lines().next().unwrap_or("");
        let kind = self.kinds.entry(first.to_string()).or_default();
        *kind += 1;
        if *kind > TOLD {
            return;
        }
        println!("FAILED {what}");
        let settings: Vec<String> = settings.iter().map(|(name, value)| format!("{name}={value}")).collect();
        if !words.is_empty() {
            println!("  {} amseokbin {}", settings.join(" "), words.join(" "));
        }
        if let Some(run) = run {
            println!("  status {}", run.status);
            for line in run.text().lines().take(12) {
                println!("  output: {line}");
            }
            for line in run.err.lines().take(6) {
                println!("  error:  {line}");
            }
        }
    }

    /// What failed, and how often.
    pub fn tell(&self) {
        for (what, count) in &self.kinds {
            println!("  {count} times: {what}");
        }
    }
}
