//! Wrong answers in the library's place, behind the C interface: the independent implementation with something else beside a number
//! than what has to stand there, with another test of a block's zero fields, with heads that are read, moved or begun otherwise, or with
//! pieces of a copy that are taken otherwise. The comparison has to notice each of them; the program `wrong` sees to it.

mod heads;
mod pieces;

use std::env;
use std::sync::OnceLock;

use crate::interface::{Answer, BlockAnswer, Refusable, Refused};
use crate::model::block::{seal, u32_at, u64_at, BlockBytes, ZERO_FIELDS};
use crate::model::record::{Span, SEGMENT_BYTES};
use crate::sample::records::head_length;
pub use heads::{told_allocation, told_begin, told_head, told_move, told_put};
pub use pieces::{told_end, told_piece, told_received};

/// The variable of the environment that names the wrong answer; without it, or empty, the answers are right.
pub const VARIABLE: &str = "AMSEOKBIN_WRONG";

/// What a refusal of a record with these segments becomes.
type Change = fn(Refused, &[Span]) -> Refused;

/// By every call.
const CHANGES: &[(&str, Change)] = &[
    ("zeros", zeros),
    ("swapped", |refused, _| clash(refused, |first, second| (second, first))),
    ("counted from 1", |refused, _| clash(refused, |first, second| (first + 1, second + 1))),
    ("a byte of each", |refused, _| clash(refused, |first, second| (first % 256, second % 256))),
    ("the first alone", |refused, _| clash(refused, |first, _| (first, 0))),
    ("the second alone", |refused, _| clash(refused, |_, second| (0, second))),
    ("the next first", |refused, spans| another(refused, spans, |first, _, (f, _)| f > first)),
    ("the next second", |refused, spans| another(refused, spans, |first, second, (f, s)| f == first && s > second)),
    ("the next pair", |refused, spans| another(refused, spans, |first, second, pair| pair > (first, second))),
    ("the last pair", |refused, spans| clash(refused, |_, _| pairs(spans).last().unwrap_or_default())),
    ("the lowest second", |refused, spans| {
        clash(refused, |_, _| pairs(spans).min_by_key(|&(first, second)| (second, first)).unwrap_or_default())
    }),
    ("neighbours by their starts", |refused, spans| clash(refused, |_, _| neighbours(spans).unwrap_or_default())),
    ("the starts alone compared", |refused, spans| {
        let mut equal =
            pairs(spans).filter(|&(first, second)| spans[first as usize].start == spans[second as usize].start);
        clash(refused, |_, _| equal.next().unwrap_or_default())
    }),
    ("none but neighbouring positions", |refused, _| {
        clash(refused, |first, second| if second == first + 1 { (first, second) } else { (0, 0) })
    }),
    ("beside 0", |refused, _| beside(refused, 0, Some((0, 1)))),
    ("beside 18", |refused, _| beside(refused, 18, Some((0, 1)))),
    ("beside 18 in a clash", |refused, spans| beside(refused, 18, pairs(spans).next())),
    ("beside 17 in a clash", |refused, spans| beside(refused, 17, pairs(spans).next())),
    ("beside 15 in a clash", |refused, spans| beside(refused, 15, pairs(spans).next())),
    ("beside every number in a clash", |refused, spans| beside(refused, refused.number, pairs(spans).next())),
];

/// The calls that can give 19: each of them leaves the pair out where all others name it.
const CALLS: &[&str] = &[
    "update_check",
    "update_plan",
    "format",
    "record_check",
    "record_head",
    "record_segment",
    "record_segments",
    "free_total",
    "free_runs",
    "run_count",
    "run_at",
    "first_fit",
    "allocate",
    "release",
    "head_up",
    "head_back",
    "head_mark",
];

/// A test of a block's flags and zero fields.
type ZeroTest = fn(&[u8]) -> bool;

/// In place of the test that every byte of the flags and the zero fields is zero.
const ZERO_TESTS: &[(&str, ZeroTest)] = &[
    ("no zero field tested", |_| true),
    ("the flags not tested", |block| twelves(block) && last(block)),
    ("the fields of twelve not tested", |block| flags(block) && last(block)),
    ("eight bytes of a field of twelve", |block| {
        flags(block) && [116, 148].map(|at| u64_at(block, at)) == [0; 2] && last(block)
    }),
    ("sixteen bytes for a field of twelve", |block| {
        flags(block) && [116, 124, 148, 156].map(|at| u64_at(block, at)) == [0; 4] && last(block)
    }),
    ("the first number not tested", |block| short(block) && numbers(block).skip(1).all(|number| number == 0)),
    ("the last number not tested", |block| short(block) && numbers(block).take(42).all(|number| number == 0)),
    ("the low half of each number", |block| short(block) && numbers(block).all(|number| number as u32 == 0)),
    ("the high half of each number", |block| short(block) && numbers(block).all(|number| number >> 32 == 0)),
    ("the first byte of each number", |block| short(block) && numbers(block).all(|number| number as u8 == 0)),
    ("numbers with a sign", |block| short(block) && numbers(block).all(|number| number as i64 <= 0)),
    ("exclusive or of the numbers", |block| short(block) && numbers(block).fold(0, |all, number| all ^ number) == 0),
    ("sum of the numbers", |block| short(block) && numbers(block).fold(0, u64::wrapping_add) == 0),
    ("common bits of the numbers", |block| {
        short(block) && numbers(block).fold(u64::MAX, |all, number| all & number) == 0
    }),
    ("sum of each number's bytes", |block| {
        short(block) && numbers(block).all(|number| number.to_le_bytes().into_iter().fold(0, u8::wrapping_add) == 0)
    }),
];

fn flags(block: &[u8]) -> bool {
    u32_at(block, 28) == 0
}

fn twelves(block: &[u8]) -> bool {
    [116, 148].map(|at| u64_at(block, at) == 0 && u32_at(block, at + 8) == 0) == [true; 2]
}

/// The flags and the fields of twelve, tested as they should be.
fn short(block: &[u8]) -> bool {
    flags(block) && twelves(block)
}

/// The 43 numbers of the last field.
fn numbers(block: &[u8]) -> impl Iterator<Item = u64> + '_ {
    (0..43).map(|number| u64_at(block, 168 + 8 * number))
}

fn last(block: &[u8]) -> bool {
    numbers(block).all(|number| number == 0)
}

/// The name of a wrong answer by one call.
fn by(call: &str) -> String {
    format!("zeros by {call}")
}

/// A wrong answer by its name, and the families of `compare` that have to notice it.
pub struct Named {
    pub name: String,
    pub families: &'static [&'static str],
}

/// The families that have to notice a wrong answer about a clash, a wrong test of zero fields, and what is wrong about heads and about
/// pieces.
const CLASH_FAMILIES: &[&str] = &["examples", "clashes"];
const ZERO_FAMILIES: &[&str] = &["zeros"];
const HEAD_FAMILIES: &[&str] = &["heads"];
const PIECE_FAMILIES: &[&str] = &["pieces"];

/// All families that have to notice a wrong answer.
pub fn families() -> impl Iterator<Item = &'static str> {
    CLASH_FAMILIES.iter().chain(ZERO_FAMILIES).chain(HEAD_FAMILIES).chain(PIECE_FAMILIES).copied()
}

/// All wrong answers.
pub fn names() -> Vec<Named> {
    let by_all = CHANGES.iter().map(|(name, _)| name.to_string());
    let clashes = by_all.chain(CALLS.iter().map(|call| by(call)));
    let zeros = ZERO_TESTS.iter().map(|(name, _)| name.to_string());
    let heads = heads::WRONG.iter().map(|(name, _)| name.to_string());
    let pieces = pieces::WRONG.iter().map(|(name, _)| name.to_string());
    let clashes = clashes.map(|name| Named { name, families: CLASH_FAMILIES });
    let zeros = zeros.map(|name| Named { name, families: ZERO_FAMILIES });
    let heads = heads.map(|name| Named { name, families: HEAD_FAMILIES });
    clashes.chain(zeros).chain(heads).chain(pieces.map(|name| Named { name, families: PIECE_FAMILIES })).collect()
}

/// A wrong answer: another refusal of a record by one call, or by every call where none is named; another test of zero fields; something
/// about heads; or about pieces.
enum Wrong {
    Record { change: Change, call: Option<&'static str> },
    Zeros(ZeroTest),
    Heads(&'static heads::Wrong),
    Pieces(&'static pieces::Wrong),
}

fn chosen() -> Option<&'static Wrong> {
    static CHOSEN: OnceLock<Option<Wrong>> = OnceLock::new();
    let choose = || {
        let name = env::var(VARIABLE).ok().filter(|name| !name.is_empty())?;
        let by_all = CHANGES.iter().find(|(known, _)| *known == name);
        let by_all = by_all.map(|(_, change)| Wrong::Record { change: *change, call: None });
        let by_one = CALLS.iter().find(|call| by(call) == name);
        let by_one = by_one.map(|call| Wrong::Record { change: zeros, call: Some(call) });
        let zeros = ZERO_TESTS.iter().find(|(known, _)| *known == name).map(|(_, test)| Wrong::Zeros(*test));
        let heads = heads::WRONG.iter().find(|(known, _)| *known == name).map(|(_, wrong)| Wrong::Heads(wrong));
        let pieces = pieces::WRONG.iter().find(|(known, _)| *known == name).map(|(_, wrong)| Wrong::Pieces(wrong));
        let any = by_all.or(by_one).or(zeros).or(heads).or(pieces);
        Some(any.unwrap_or_else(|| panic!("{VARIABLE}: no wrong answer is {name}")))
    };
    CHOSEN.get_or_init(choose).as_ref()
}

/// The answer of a call for a record, as the chosen wrong answer has it.
pub fn told<A: Refusable>(call: &'static str, record: &[u8], ask: impl FnOnce(&[u8]) -> A) -> A {
    match chosen() {
        Some(Wrong::Record { change, call: only }) if only.is_none_or(|only| only == call) => {
            let mut answer = ask(record);
            let refusal = answer.refusal_mut();
            *refusal = change(*refusal, &spans(record));
            answer
        }
        Some(Wrong::Heads(heads::Wrong::Read(read))) => ask(&read(record)),
        _ => ask(record),
    }
}

/// The reading of a block, with the chosen test of its zero fields where one is chosen.
pub fn told_block(bytes: &[u8], read: impl Fn(&[u8]) -> BlockAnswer) -> BlockAnswer {
    let answer = read(bytes);
    let Some(Wrong::Zeros(test)) = chosen() else { return answer };
    match answer.number() {
        // What the tests after it answer: those of a block whose fields are zero.
        5 if test(bytes) => {
            let mut block: BlockBytes = bytes.try_into().expect("a block that is refused with 5 has 512 bytes");
            for range in ZERO_FIELDS {
                block[range].fill(0);
            }
            seal(&mut block);
            read(&block)
        }
        0 | 6..=9 if !test(bytes) => BlockAnswer { refusal: Refused::numbered(5), ..Default::default() },
        _ => answer,
    }
}

/// The segments of a record, whatever else is wrong with it.
fn spans(record: &[u8]) -> Vec<Span> {
    let items = record.get(head_length(record)..).unwrap_or_default().chunks_exact(SEGMENT_BYTES);
    items
        .map(|item| {
            let start = u64_at(item, 4);
            Span { start, end: start.saturating_add(u64_at(item, 12)) }
        })
        .collect()
}

/// All pairs that clash, the lowest first.
fn pairs(spans: &[Span]) -> impl Iterator<Item = (u64, u64)> + '_ {
    let all = (0..spans.len()).flat_map(|first| (first + 1..spans.len()).map(move |second| (first, second)));
    let clash = all.filter(|&(first, second)| spans[first].shares(&spans[second]));
    clash.map(|(first, second)| (first as u64, second as u64))
}

/// The first two in the order of starts that clash, the lower position first.
fn neighbours(spans: &[Span]) -> Option<(u64, u64)> {
    let mut order: Vec<u64> = (0..spans.len() as u64).collect();
    order.sort_by_key(|&position| spans[position as usize].start);
    let mut neighbours = order.windows(2).map(|pair| (pair[0].min(pair[1]), pair[0].max(pair[1])));
    neighbours.find(|&(first, second)| spans[first as usize].shares(&spans[second as usize]))
}

/// 19 with another pair.
fn clash(refused: Refused, pair: impl FnOnce(u64, u64) -> (u64, u64)) -> Refused {
    if refused.number != 19 {
        return refused;
    }
    let (first, second) = pair(refused.first, refused.second);
    Refused { first, second, ..refused }
}

fn zeros(refused: Refused, _: &[Span]) -> Refused {
    clash(refused, |_, _| (0, 0))
}

/// 19 with the first pair that is wanted, where there is one.
fn another(refused: Refused, spans: &[Span], wanted: fn(u64, u64, (u64, u64)) -> bool) -> Refused {
    clash(refused, |first, second| pairs(spans).find(|&pair| wanted(first, second, pair)).unwrap_or((first, second)))
}

/// A pair beside another number, where there is one.
fn beside(refused: Refused, number: u8, pair: Option<(u64, u64)>) -> Refused {
    match pair {
        Some((first, second)) if refused.number == number => Refused { first, second, ..refused },
        _ => refused,
    }
}
