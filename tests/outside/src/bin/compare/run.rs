//! Makes one call to the library and to the independent implementation, and compares answers and all lent memory.

use std::collections::{BTreeMap, BTreeSet};
use std::process::exit;

use outside::ffi::Library;
use outside::interface::{Answer, Interface, Refused};
use outside::lent::{Item, Lent};
use outside::model::record::MAX_SEGMENTS;
use outside::model::Model;
use outside::rng::Rng;

use crate::expected::{CALLS, CLASH, LAST, LEAST_PAIRS};

const MOST_FAILURES: u64 = 10;

pub struct Run {
    seed: u64,
    family: &'static str,
    case: u64,
    /// One case only, asked for by its number: failures show what was lent.
    single: bool,
    calls: u64,
    failures: u64,
    answers: BTreeMap<(&'static str, u64), u64>,
    /// The pairs that each call named beside 19.
    pairs: BTreeMap<&'static str, BTreeSet<(u64, u64)>>,
}

/// What both implementations answered, and what they left in the lent memory.
pub struct Outcome<A, const B: usize, const N: usize> {
    pub answer: A,
    pub expected: A,
    pub library: ([Lent<u8>; B], [Lent<u64>; N]),
    pub model: ([Lent<u8>; B], [Lent<u64>; N]),
}

impl<A: Answer, const B: usize, const N: usize> Outcome<A, B, N> {
    /// The refusal number of the library's answer.
    pub fn number(&self) -> u64 {
        self.answer.number()
    }
}

impl Run {
    pub fn new(seed: u64, single: bool) -> Self {
        let (answers, pairs) = (BTreeMap::new(), BTreeMap::new());
        Run { seed, family: "", case: 0, single, calls: 0, failures: 0, answers, pairs }
    }

    pub fn begin(&mut self, family: &'static str, number: u64, case: u64) -> Rng {
        self.family = family;
        self.case = case;
        Rng::of_case(self.seed, number, case)
    }

    /// A call that changes nothing: both answers, and that the inputs stay.
    pub fn ask<A: Answer>(
        &mut self,
        call: &'static str,
        inputs: &[&Lent<u8>],
        f: impl Fn(&dyn Interface) -> A,
    ) -> Outcome<A, 0, 0> {
        self.both(call, inputs, [], [], |api, [], []| f(api))
    }

    /// Calls both with the same lent memory and compares everything: every field of the answers, and all that was lent. Of a
    /// refusal every other field is zero, and nothing that was lent is changed. A pair stands beside 19 and beside no other number.
    pub fn both<A: Answer, const B: usize, const N: usize>(
        &mut self,
        call: &'static str,
        inputs: &[&Lent<u8>],
        bytes: [Lent<u8>; B],
        numbers: [Lent<u64>; N],
        f: impl Fn(&dyn Interface, &mut [Lent<u8>; B], &mut [Lent<u64>; N]) -> A,
    ) -> Outcome<A, B, N> {
        let before = (bytes.clone(), numbers.clone());
        let outcome = self.call(call, inputs, (bytes, numbers), f);
        self.same(call, inputs, "bytes", &outcome.library.0, &outcome.model.0);
        self.same(call, inputs, "numbers", &outcome.library.1, &outcome.model.1);
        let refusal = outcome.answer.refused();
        if let Some(refused) = refusal.filter(|refused| !is_beside(refused)) {
            self.fail(call, inputs, &format!("a pair where there is none, or none where there is one: {refused:?}"));
        }
        if refusal.is_some_and(|refused| refused.number != 0) {
            if outcome.answer.alone() != Some(outcome.answer) {
                let what = format!("refused, but another field is not zero: {:?}", outcome.answer);
                self.fail(call, inputs, &what);
            }
            let bytes = before.0.iter().zip(&outcome.library.0).all(|(a, b)| a.whole() == b.whole());
            let numbers = before.1.iter().zip(&outcome.library.1).all(|(a, b)| a.whole() == b.whole());
            if !(bytes && numbers) {
                self.fail(call, inputs, "refused, but lent memory changed");
            }
        }
        outcome
    }

    fn call<A: Answer, const B: usize, const N: usize>(
        &mut self,
        call: &'static str,
        inputs: &[&Lent<u8>],
        lent: ([Lent<u8>; B], [Lent<u64>; N]),
        f: impl Fn(&dyn Interface, &mut [Lent<u8>; B], &mut [Lent<u64>; N]) -> A,
    ) -> Outcome<A, B, N> {
        let kept: Vec<Vec<u8>> = inputs.iter().map(|input| input.whole().to_vec()).collect();
        let (mut library, mut model) = (lent.clone(), lent);
        let answer = f(&Library, &mut library.0, &mut library.1);
        for (input, kept) in inputs.iter().zip(&kept) {
            if input.whole() != kept {
                self.fail(call, inputs, "bytes that were lent to be read changed");
            }
        }
        let expected = f(&Model, &mut model.0, &mut model.1);
        if answer != expected {
            let what = format!("library answers {answer:?}, model {expected:?}");
            self.fail(call, inputs, &what);
        }
        self.count(call, expected.number());
        if let Some(Refused { number: CLASH, first, second }) = expected.refused() {
            self.pairs.entry(call).or_default().insert((first, second));
        }
        Outcome { answer, expected, library, model }
    }

    fn same<T: Item>(&mut self, call: &str, inputs: &[&Lent<u8>], what: &str, library: &[Lent<T>], model: &[Lent<T>]) {
        for (index, (ours, theirs)) in library.iter().zip(model).enumerate() {
            if let Some(at) = ours.first_difference(theirs) {
                let length = ours.part().len();
                let place = format!("lent {what} {index} of length {length} differ from {at}");
                let value = |lent: &Lent<T>| {
                    let at = usize::try_from(at).ok()?;
                    lent.part().get(at).copied()
                };
                let values = format!("library {:?}, model {:?}", value(ours), value(theirs));
                self.fail(call, inputs, &format!("{place}: {values}"));
            }
        }
    }

    /// Counts an answer.
    pub fn count(&mut self, call: &'static str, answer: u64) {
        self.calls += 1;
        *self.answers.entry((call, answer)).or_default() += 1;
    }

    /// Counts a case that must be reached, beside the calls.
    pub fn reached(&mut self, case: &'static str) {
        *self.answers.entry((case, 1)).or_default() += 1;
    }

    pub fn require(&mut self, call: &str, condition: bool, what: &str) {
        if !condition {
            self.fail(call, &[], what);
        }
    }

    fn fail(&mut self, call: &str, inputs: &[&Lent<u8>], what: &str) {
        let Run { seed, family, case, .. } = *self;
        println!("FAILED {call}: {what}");
        println!("  run again: compare {seed} {family} {case}");
        if self.single {
            for (index, input) in inputs.iter().enumerate() {
                println!("  input {index}, {} bytes: {}", input.part().len(), hex(input.part()));
            }
        }
        self.failures += 1;
        if self.failures >= MOST_FAILURES {
            println!("stopped after {MOST_FAILURES} failures");
            exit(1);
        }
    }

    /// Prints the counts. Fails where a listed answer was never reached or an answer is not listed.
    pub fn finish(mut self) {
        for (call, listed) in CALLS {
            let counts = |number: &u64| self.answers.get(&(*call, *number)).copied().unwrap_or(0);
            let line: Vec<String> = listed.iter().map(|n| format!("{n}:{}", counts(n))).collect();
            if listed.is_empty() {
                let total: u64 = self.answers.iter().filter(|(key, _)| key.0 == *call).map(|(_, n)| n).sum();
                println!("{call:20} {total} calls");
            } else {
                println!("{call:20} {}", line.join(" "));
            }
        }
        for case in LAST {
            let count = self.answers.get(&(*case, 1)).copied().unwrap_or(0);
            println!("{case}: {count}");
        }
        for call in clashing() {
            println!("{call}, different pairs beside 19: {}", self.pair_count(call));
        }
        if !self.single {
            self.check_answers();
        }
        println!("compare: seed {}, {} calls, {} failures", self.seed, self.calls, self.failures);
        if self.failures > 0 {
            exit(1);
        }
    }

    fn pair_count(&self, call: &str) -> usize {
        self.pairs.get(call).map_or(0, BTreeSet::len)
    }

    fn check_answers(&mut self) {
        let listed = CALLS.iter().flat_map(|(call, numbers)| numbers.iter().map(|n| (*call, *n)));
        let cases = LAST.iter().map(|case| (*case, 1));
        let wanted: Vec<(&str, u64)> = listed.chain(cases).collect();
        for pair in &wanted {
            if !self.answers.contains_key(pair) {
                println!("FAILED {}: answer {} was never reached", pair.0, pair.1);
                self.failures += 1;
            }
        }
        for (call, number) in self.answers.keys() {
            let open = CALLS.iter().any(|(name, numbers)| name == call && numbers.is_empty());
            if !open && !wanted.contains(&(call, *number)) {
                println!("FAILED {call}: answer {number} is not listed for it");
                self.failures += 1;
            }
        }
        for call in clashing() {
            if self.pair_count(call) < LEAST_PAIRS {
                println!("FAILED {call}: fewer than {LEAST_PAIRS} different pairs beside 19");
                self.failures += 1;
            }
        }
    }
}

/// The calls that can give 19.
fn clashing() -> impl Iterator<Item = &'static str> {
    CALLS.iter().filter(|(_, listed)| listed.contains(&u64::from(CLASH))).map(|(call, _)| *call)
}

/// What stands beside a number can stand there: two positions beside 19, the lower one first, and zeros beside every other.
fn is_beside(refused: &Refused) -> bool {
    let Refused { number, first, second } = *refused;
    match number {
        CLASH => first < second && second < MAX_SEGMENTS as u64,
        _ => first == 0 && second == 0,
    }
}

fn hex(bytes: &[u8]) -> String {
    bytes.iter().map(|byte| format!("{byte:02x}")).collect()
}
