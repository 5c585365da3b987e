//! Checksums, and the order of times.

use outside::interface::Time;
use outside::lent::Lent;
use outside::rng::Rng;
use outside::sample::numbers::{break_nanoseconds, times};

use crate::run::Run;

pub fn case(run: &mut Run, rng: &mut Rng, number: u64) {
    // Every short length, then random ones.
    let length = if number < 1_100 { number as usize } else { rng.index(10_000) };
    let bytes = Lent::random(rng, length);
    let whole = run.ask("checksum", &[&bytes], |api| api.checksum(bytes.part()));
    let before = if rng.once_in(4) { 0 } else { rng.next() as u32 };
    run.ask("checksum_continued", &[&bytes], |api| api.checksum_continued(before, bytes.part()));
    // The whole from its pieces, cut anywhere.
    let cut = rng.index(length + 1);
    let (first, second) = bytes.part().split_at(cut);
    let pieced =
        run.ask("checksum_continued", &[], |api| api.checksum_continued(api.checksum_continued(0, first), second));
    run.require("checksum_continued", whole.answer == pieced.answer, "pieces differ from whole");
    later(run, rng);
    run.ask("version", &[], |api| api.version());
}

/// Times of few seconds and nanoseconds, some past the limit: any two of them.
fn later(run: &mut Run, rng: &mut Rng) {
    let mut times = times(rng, 3);
    if rng.once_in(4) {
        times[0].nanoseconds = break_nanoseconds(rng);
    }
    let mixed = Time { seconds: times[0].seconds, nanoseconds: times[1].nanoseconds };
    times.push(mixed);
    for &time in &times {
        for &than in &times {
            let later = run.ask("later", &[], |api| api.later(time, than)).answer;
            let turned = run.ask("later", &[], |api| api.later(than, time)).answer;
            run.require("later", later || turned || time == than, "neither of two times is later");
            run.require("later", !(later && turned), "each of two times is later");
        }
    }
}
