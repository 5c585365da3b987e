//! Flags and zero fields that are not zero, in ways that a wrong test of several bytes at a time takes for zero.

use std::ops::Range;

use crate::model::block::{BlockBytes, ZERO_FIELDS};
use crate::rng::Rng;

/// What makes the flags or a zero field of a block other than zero.
pub type Shape = fn(&mut Rng, &mut BlockBytes);

const FIELDS_OF_TWELVE: [usize; 2] = [ZERO_FIELDS[1].start, ZERO_FIELDS[2].start];
const LAST_FIELD: usize = ZERO_FIELDS[3].start;
/// As many numbers of eight bytes as the last field has.
const NUMBERS: usize = 43;

pub const SHAPES: &[(&str, Shape)] = &[
    ("not zero: the flags", |rng, block| fill(rng, block, ZERO_FIELDS[0].clone())),
    ("not zero: the first eight bytes of a field of twelve", |rng, block| {
        let at = rng.one_of(&FIELDS_OF_TWELVE);
        fill(rng, block, at..at + 8);
    }),
    ("not zero: the last four bytes of a field of twelve", |rng, block| {
        let at = rng.one_of(&FIELDS_OF_TWELVE);
        fill(rng, block, at + 8..at + 12);
    }),
    ("not zero: the first number of the last field", |rng, block| {
        let value = any(rng);
        put(block, 0, value);
    }),
    ("not zero: the last number of the last field", |rng, block| {
        let value = any(rng);
        put(block, NUMBERS - 1, value);
    }),
    ("not zero: the low half of a number", |rng, block| {
        let value = any(rng) % (1 << 32) | 1;
        put(block, rng.index(NUMBERS), value);
    }),
    ("not zero: the high half of a number", |rng, block| {
        let value = any(rng) << 32 | 1 << 32;
        put(block, rng.index(NUMBERS), value);
    }),
    ("not zero: one byte of a number", |rng, block| {
        let value = rng.within(1, 255) << (8 * rng.below(8));
        put(block, rng.index(NUMBERS), value);
    }),
    ("not zero: a number with its highest bit", |rng, block| {
        let value = any(rng) | 1 << 63;
        put(block, rng.index(NUMBERS), value);
    }),
    ("not zero: two numbers that are equal", |rng, block| {
        let value = any(rng);
        two(rng, block, [value, value]);
    }),
    ("not zero: two numbers that add up to 2^64", |rng, block| {
        let value = any(rng);
        two(rng, block, [value, value.wrapping_neg()]);
    }),
    ("not zero: two numbers without a common bit", |rng, block| {
        let value = any(rng);
        two(rng, block, [value, !value]);
    }),
    ("not zero: two bytes of a number that add up to 256", |rng, block| {
        let value = rng.within(1, 255);
        let [first, second] = different(rng, 8);
        put(block, rng.index(NUMBERS), value << (8 * first) | (256 - value) << (8 * second));
    }),
    ("not zero: every number of the last field, all equal", |rng, block| {
        let value = any(rng);
        (0..NUMBERS).for_each(|number| put(block, number, value));
    }),
    ("not zero: any bytes in the last field", |rng, block| fill(rng, block, ZERO_FIELDS[3].clone())),
];

/// Any number but 0.
fn any(rng: &mut Rng) -> u64 {
    rng.next().max(1)
}

/// Two different numbers below an end.
fn different(rng: &mut Rng, end: usize) -> [usize; 2] {
    let first = rng.index(end);
    [first, (first + 1 + rng.index(end - 1)) % end]
}

/// One of the numbers of the last field.
fn put(block: &mut BlockBytes, number: usize, value: u64) {
    let at = LAST_FIELD + 8 * number;
    block[at..at + 8].copy_from_slice(&value.to_le_bytes());
}

/// Two numbers of the last field, at different places.
fn two(rng: &mut Rng, block: &mut BlockBytes, values: [u64; 2]) {
    for (number, value) in different(rng, NUMBERS).into_iter().zip(values) {
        put(block, number, value);
    }
}

/// Any bytes, of which one at least is not zero.
fn fill(rng: &mut Rng, block: &mut BlockBytes, range: Range<usize>) {
    let at = range.start + rng.index(range.len());
    rng.fill(&mut block[range]);
    block[at] |= 1;
}
