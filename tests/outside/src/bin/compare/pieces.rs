//! Copies that arrive in pieces: cut in every way, with pieces that are too long and ends that come too early; and states that no call
//! made.

use outside::ffi::Library;
use outside::interface::{CopyAnswer, Interface, Received};
use outside::lent::Lent;
use outside::model::block::{u32_at, ENTRY_OFFSET};
use outside::model::layout::{AREA_OFFSET, BLOCK_OFFSET, COPY, RECORD_LIMIT, SECTOR};
use outside::model::receive::{fits, used, State};
use outside::rng::Rng;
use outside::sample::pieces::{any_copy, any_state, lengths, piece_length, Shape, SHAPES};

use crate::expected::LAST;
use crate::run::Run;

/// A walk of no more pieces is looked at closely before each of them; one of more, as often as that.
const CLOSELY: usize = 24;

pub fn case(run: &mut Run, rng: &mut Rng, number: u64) {
    let (name, shape) = SHAPES[number as usize % SHAPES.len()];
    let copy = any_copy(rng);
    walk(run, rng, &copy, shape);
    run.reached(name);
    for _ in 0..8 {
        made_up(run, rng);
    }
}

/// One copy in pieces, from a fresh state to the end.
fn walk(run: &mut Run, rng: &mut Rng, copy: &[u8], shape: Shape) {
    let lent = Lent::holding(rng, copy);
    let before = lent.clone();
    let lengths = lengths(rng, copy, shape);
    let mut kept = run.ask("receive_begin", &[], |api| api.receive_begin()).answer;
    let fresh = Received { taken: 0, block: [0; SECTOR], a: 0, b: 0 };
    run.require("receive_begin", kept == fresh, "not all zero");
    let mut refused = false;
    for &length in &lengths {
        let at = kept.taken.min(COPY);
        let closely = lengths.len() <= CLOSELY || rng.index(lengths.len()) < CLOSELY;
        if closely {
            aside(run, rng, kept, &lent.part()[..at]);
            refused = true;
        }
        let bytes = &lent.part()[at..COPY.min(at + length)];
        kept = piece(run, kept, bytes);
        if closely {
            let joined = State::of_joined(&copy[..at + bytes.len()]);
            run.require("receive_piece", State::from(kept) == joined, "not the state of the bytes so far");
        }
    }
    run.require("receive_piece", kept.taken == COPY, "the pieces of a copy are not all of it");
    if refused {
        run.reached("receive_piece, shorter ones taken after one that is too long");
    }
    aside(run, rng, kept, lent.part());
    let answer = end(run, kept, lent.part());
    note_end(run, copy, &answer);
    run.require("receive_piece", lent.whole() == before.whole(), "bytes that were lent to be read changed");
}

/// What may be asked between two pieces and changes nothing: the end, a piece of nothing, and pieces that are too long.
fn aside(run: &mut Run, rng: &mut Rng, kept: Received, joined: &[u8]) {
    let left = COPY - joined.len();
    let ended = end(run, kept, joined);
    if left > 0 {
        run.require("receive_end", ended.refusal.number == 1, "not 1 for fewer bytes than a copy has");
        run.reached("receive_end, ended before the last piece and gone on");
    }
    match (left, joined.len()) {
        (1, _) => run.reached("receive_end, one byte too few"),
        (_, 0) => run.reached("receive_end, nothing taken"),
        _ => {}
    }
    let same = piece(run, kept, &[]);
    run.require("receive_piece", same == kept, "a piece of nothing changes the state");
    match (left, joined.len()) {
        (_, 0) => run.reached("receive_piece, nothing before the first byte"),
        (0, _) => run.reached("receive_piece, nothing after the last byte"),
        _ => {}
    }
    let more = rng.index(2 * COPY);
    let over = rng.one_of(&[1, 1, 1, 2, 512, COPY, more + 1]);
    let long = Lent::random(rng, left + over);
    let same = run.ask("receive_piece", &[&long], |api| api.receive_piece(kept, long.part()));
    let back = same.number() == 1 && same.answer.received == kept;
    run.require("receive_piece", back, "a piece that is too long is not 1, or changes the state");
    match (over, left) {
        (1, 0) => run.reached("receive_piece, one byte after the last"),
        (1, _) => run.reached("receive_piece, one byte too many"),
        _ => run.reached("receive_piece, more bytes too many"),
    }
    if joined.len() < BLOCK_OFFSET + SECTOR {
        run.reached("receive_piece, too long where it has bytes of the block");
    }
}

/// The state after a piece; as it was where the piece is too long, and then 1.
fn piece(run: &mut Run, kept: Received, bytes: &[u8]) -> Received {
    let outcome = run.ask("receive_piece", &[], |api| api.receive_piece(kept, bytes));
    let next = outcome.answer.received;
    let taken = fits(kept.taken, bytes.len());
    run.require("receive_piece", outcome.number() == u64::from(!taken), "1 for a piece that fits, or another number");
    if taken {
        run.require("receive_piece", next.taken == kept.taken + bytes.len(), "another count than with the piece");
    } else {
        run.require("receive_piece", next == kept, "refused, and the state changes");
    }
    next
}

/// The end, twice: what the bytes at once give, by both implementations.
fn end(run: &mut Run, kept: Received, joined: &[u8]) -> CopyAnswer {
    let outcome = run.ask("receive_end", &[], |api| api.receive_end(kept));
    let again = Library.receive_end(kept);
    run.require("receive_end", again == outcome.answer, "another answer when it is asked again");
    let at_once = run.ask("copy_read", &[], |api| api.copy_read(joined));
    let same = outcome.answer == at_once.answer && outcome.answer == at_once.expected;
    run.require("receive_end", same, "another answer than for the copy at once");
    outcome.answer
}

/// Counts what the end answered of a copy, and what its entries said.
fn note_end(run: &mut Run, copy: &[u8], answer: &CopyAnswer) {
    let state = State::of_joined(copy);
    let entry = |area: usize| &state.block[ENTRY_OFFSET[area]..][..20];
    let sums = [0, 1].map(|area| u32_at(entry(area), 16) == state.sums[area]);
    for area in 0..2 {
        match u32_at(entry(area), 12) as usize {
            0 => {}
            1 => run.reached("receive_piece, an area of one byte"),
            RECORD_LIMIT => run.reached("receive_piece, an area of 8192 bytes"),
            length if length > RECORD_LIMIT => run.reached("receive_piece, an entry past the limit"),
            _ => run.reached("receive_piece, an area of any length"),
        }
    }
    if answer.refusal.number != 0 {
        let name = format!("receive_end, a copy that is refused with {}", answer.refusal.number);
        if let Some(case) = LAST.iter().find(|case| **case == name) {
            run.reached(case);
        }
        if sums == [true; 2] {
            run.reached("receive_end, a refused block whose checksums are right");
        }
        return;
    }
    run.reached(match (answer.a_whole, answer.b_whole) {
        (true, true) => "receive_end, both areas whole",
        (true, false) => "receive_end, area a alone whole",
        (false, true) => "receive_end, area b alone whole",
        (false, false) => "receive_end, no area whole",
    });
    run.reached(match answer.present {
        0 => "receive_end, no present record",
        1 => "receive_end, the present record in area a",
        _ => "receive_end, the present record in area b",
    });
    let later = if answer.block.a.time() > answer.block.b.time() { answer.a_whole } else { answer.b_whole };
    if !later && answer.present != 0 {
        run.reached("receive_end, the later entry is not whole");
    }
    if [0, 1].into_iter().any(|area| entry(area).iter().all(|&byte| byte == 0)) {
        run.reached("receive_end, an unused entry, whose checksum is that of no bytes");
    }
}

/// A state that no call made, a few pieces from it, and the end after each.
fn made_up(run: &mut Run, rng: &mut Rng) {
    let mut kept = Received::from(any_state(rng));
    for _ in 0..3 {
        let answer = run_end(run, kept);
        note_made_up(run, kept, &answer);
        let length = piece_length(rng, kept.taken);
        let bytes = Lent::random(rng, length);
        let outcome = run.ask("receive_piece", &[&bytes], |api| api.receive_piece(kept, bytes.part()));
        let next = piece(run, kept, bytes.part());
        run.require("receive_piece", next == outcome.answer.received, "another state when it is asked again");
        note_piece(run, kept, length, next);
        kept = next;
    }
    run_end(run, kept);
}

fn run_end(run: &mut Run, kept: Received) -> CopyAnswer {
    run.ask("receive_end", &[], |api| api.receive_end(kept)).answer
}

/// Counts what was reached by a piece after a state that no call made.
fn note_piece(run: &mut Run, kept: Received, length: usize, next: Received) {
    let mut reached = |condition: bool, name| {
        if condition {
            run.reached(name);
        }
    };
    let (start, sum) = (kept.taken, kept.taken.wrapping_add(length));
    reached(start > COPY && length == 0, "no call made: 1 for a piece of nothing");
    reached(start > COPY && sum <= COPY, "no call made: 1 where a sum would wrap");
    reached(
        start > COPY && length > 0 && sum as u32 as usize <= COPY,
        "no call made: 1 where a sum of 32 bits would fit",
    );
    if !fits(start, length) || length == 0 {
        return;
    }
    let holds = |from: usize, to: usize| start < to && sum > from;
    reached(holds(BLOCK_OFFSET, BLOCK_OFFSET + SECTOR), "no call made: a piece of the block");
    for (area, from) in AREA_OFFSET.into_iter().enumerate() {
        let [old, new] = [&kept.block, &next.block].map(|block| used(block, area));
        let said = u32_at(&next.block, ENTRY_OFFSET[area] + 12) as usize;
        reached(
            old != new && holds(from, from + old.max(new)),
            "no call made: a piece that changes an entry and goes on",
        );
        reached(new == 0 && said > RECORD_LIMIT && holds(from, COPY), "no call made: an entry past the limit");
        reached(new > 0 && sum == from + new, "no call made: up to the last used byte");
        reached(new > 0 && start < from + new && sum > from + new, "no call made: past the last used byte");
    }
    reached(next.a != kept.a && next.b == kept.b, "no call made: a piece of area a");
    reached(next.a == kept.a && next.b != kept.b, "no call made: a piece of area b");
    reached(next.a != kept.a && next.b != kept.b, "no call made: a piece of both areas");
}

/// Counts what was reached by an end of a state that no call made.
fn note_made_up(run: &mut Run, kept: Received, answer: &CopyAnswer) {
    let mut reached = |condition: bool, name| {
        if condition {
            run.reached(name);
        }
    };
    let accepted = Library.block_read(&kept.block).refusal.number == 0;
    reached(kept.taken > COPY && accepted, "no call made: the end of more than a copy");
    reached(kept.taken < COPY && accepted, "no call made: the end of less than a copy");
    if kept.taken != COPY {
        return;
    }
    let entries = [&answer.block.a, &answer.block.b];
    let unused = |area: usize| entries[area].bytes == 0;
    reached(answer.a_whole && answer.b_whole, "no call made: whole by both checksums");
    reached(answer.present == 1, "no call made: the present record in area a");
    reached(answer.present == 2, "no call made: the present record in area b");
    let near = |sum: u32, own: u32| (sum ^ own).count_ones() == 1;
    let torn = near(kept.a, answer.block.a.checksum) || near(kept.b, answer.block.b.checksum);
    reached(accepted && torn, "no call made: a checksum that differs in one bit");
    let zero = unused(0) && kept.a == 0 || unused(1) && kept.b == 0;
    reached(accepted && zero, "no call made: the checksum 0 for an unused entry");
    let other = unused(0) && kept.a != 0 || unused(1) && kept.b != 0;
    reached(accepted && other, "no call made: another checksum for an unused entry");
    reached(!accepted, "no call made: a refused block");
}
