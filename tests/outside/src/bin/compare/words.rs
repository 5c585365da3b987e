//! What every refusal number says.

use outside::interface::WORDS;
use outside::rng::Rng;

use crate::run::Run;

/// As many cases as there are numbers.
pub const CASES: u64 = 256;

pub fn case(run: &mut Run, _: &mut Rng, number: u64) {
    let number = number as u8;
    let words = run.ask("refusal_words", &[], |api| api.refusal_words(number)).answer;
    run.require("refusal_words", (1..WORDS).contains(&words.used), "no words, or no zero after them");
    let (text, rest) = words.bytes.split_at(words.used.min(WORDS));
    let ascii = text.iter().all(|byte| (b' '..=b'~').contains(byte));
    run.require("refusal_words", ascii, "words that are not in ASCII");
    run.require("refusal_words", rest.iter().all(|&byte| byte == 0), "the rest is not zero");
}
