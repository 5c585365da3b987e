//! Segments that clash, in every shape.

use super::records::{all_segments, segments};
use crate::model::layout::Device;
use crate::model::record::{Segment, MAX_SEGMENTS};
use crate::rng::Rng;

/// What is known of a sample by the way it was made.
#[derive(Clone, Copy, Debug, PartialEq, Eq)]
pub enum Known {
    /// The lowest position that clashes with a later one, and the lowest such later position.
    Pair(usize, usize),
    /// Some two clash.
    Clash,
    NoClash,
    Nothing,
}

/// Segments in the order of their positions, all in the data range, and what is known of them.
type Shape = fn(&mut Rng, &Device) -> (Vec<Segment>, Known);

pub const SHAPES: &[(&str, Shape)] = &[
    ("a clash: the first two", first_two),
    ("a clash: the last two", last_two),
    ("a clash: the last two of 409", last_two_of_all),
    ("a clash: the first and the last of 409", first_and_last),
    ("a clash: any two of 409", any_two_of_all),
    ("a clash: several pairs", several),
    ("a clash: equal segments", equal),
    ("a clash: one inside another, several deep", nested),
    ("a clash: one over several", covering),
    ("a clash: one over all the others", covering_all),
    ("a clash: three in a chain", chain),
    ("a clash: the earlier position starts later", backwards),
    ("a clash: the earlier position starts first", forwards),
    ("a clash: in a row without gaps, one sector too long", row_with_one),
    ("no clash: in a row without gaps", row),
    ("few segments in a narrow range", narrow),
    ("many segments in a range that is wide for them", wide),
];

/// Two positions that clash, in any order.
fn both(one: usize, other: usize) -> Known {
    Known::Pair(one.min(other), one.max(other))
}

/// Positions of which every two clash.
fn every(positions: &[usize]) -> Known {
    let mut sorted = positions.to_vec();
    sorted.sort_unstable();
    sorted.dedup();
    Known::Pair(sorted[0], sorted[1])
}

fn kind(rng: &mut Rng) -> u16 {
    rng.within(1, 4) as u16
}

fn end(segment: &Segment) -> u64 {
    segment.start + segment.length
}

/// Segments that share no sector, in random order, at least so many.
fn apart(rng: &mut Rng, device: &Device, least: usize) -> Vec<Segment> {
    loop {
        let few = (least + rng.index(8)).min(MAX_SEGMENTS);
        let any = least + rng.index(MAX_SEGMENTS + 1 - least);
        let count = rng.one_of(&[least, few, few, any, MAX_SEGMENTS]);
        let segments = segments(rng, device, count);
        // Segments that fell together are left out.
        if segments.len() >= least {
            return segments;
        }
    }
}

/// Two positions, the lower one first.
fn two(rng: &mut Rng, count: usize) -> (usize, usize) {
    let first = rng.index(count - 1);
    (first, first + 1 + rng.index(count - 1 - first))
}

/// A part of a segment, or all of it, and at least one sector.
fn part(rng: &mut Rng, of: &Segment) -> Segment {
    let skipped = rng.below(of.length);
    let length = rng.within(1, of.length - skipped);
    let (start, length) = match rng.below(5) {
        0 => (of.start, of.length),
        1 => (of.start, 1),
        2 => (end(of) - 1, 1),
        _ => (of.start + skipped, length),
    };
    Segment { kind: kind(rng), start, length }
}

/// The segments, which share no sector, with one of two of them moved into the other, so that these two clash and no others.
fn pair(rng: &mut Rng, mut segments: Vec<Segment>, (first, second): (usize, usize)) -> (Vec<Segment>, Known) {
    if rng.coin() {
        segments[second] = part(rng, &segments[first]);
    } else {
        segments[first] = part(rng, &segments[second]);
    }
    (segments, Known::Pair(first, second))
}

fn first_two(rng: &mut Rng, device: &Device) -> (Vec<Segment>, Known) {
    let segments = apart(rng, device, 2);
    pair(rng, segments, (0, 1))
}

fn last_two(rng: &mut Rng, device: &Device) -> (Vec<Segment>, Known) {
    let segments = apart(rng, device, 2);
    let last = segments.len() - 1;
    pair(rng, segments, (last - 1, last))
}

fn last_two_of_all(rng: &mut Rng, device: &Device) -> (Vec<Segment>, Known) {
    let segments = all_segments(rng, device);
    pair(rng, segments, (MAX_SEGMENTS - 2, MAX_SEGMENTS - 1))
}

fn first_and_last(rng: &mut Rng, device: &Device) -> (Vec<Segment>, Known) {
    let segments = all_segments(rng, device);
    pair(rng, segments, (0, MAX_SEGMENTS - 1))
}

fn any_two_of_all(rng: &mut Rng, device: &Device) -> (Vec<Segment>, Known) {
    let segments = all_segments(rng, device);
    let positions = two(rng, MAX_SEGMENTS);
    pair(rng, segments, positions)
}

/// A segment may be in more than one pair, so that three or more share a sector.
fn several(rng: &mut Rng, device: &Device) -> (Vec<Segment>, Known) {
    let segments = apart(rng, device, 4);
    let positions = two(rng, segments.len());
    let (mut segments, _) = pair(rng, segments, positions);
    for _ in 0..rng.within(1, 6) {
        let (first, second) = two(rng, segments.len());
        let (from, to) = if rng.coin() { (first, second) } else { (second, first) };
        // The pair above stays one.
        if to != positions.0 && to != positions.1 {
            segments[to] = part(rng, &segments[from]);
        }
    }
    (segments, Known::Clash)
}

/// Two positions or a few, in any order.
fn some(rng: &mut Rng, count: usize) -> Vec<usize> {
    let mut positions: Vec<usize> = (0..count).collect();
    rng.shuffle(&mut positions);
    positions.truncate(rng.within(2, 5) as usize);
    positions
}

fn equal(rng: &mut Rng, device: &Device) -> (Vec<Segment>, Known) {
    let mut segments = apart(rng, device, 2);
    let positions = some(rng, segments.len());
    let Segment { start, length, .. } = segments[positions[0]];
    for &position in &positions {
        segments[position] = Segment { kind: kind(rng), start, length };
    }
    (segments, every(&positions))
}

/// The innermost lies in all of them.
fn nested(rng: &mut Rng, device: &Device) -> (Vec<Segment>, Known) {
    let mut segments = apart(rng, device, 2);
    let positions = some(rng, segments.len());
    for pair in positions.windows(2) {
        segments[pair[1]] = part(rng, &segments[pair[0]]);
    }
    (segments, every(&positions))
}

/// Positions in the order of the segments' starts.
fn by_start(segments: &[Segment]) -> Vec<usize> {
    let mut order: Vec<usize> = (0..segments.len()).collect();
    order.sort_by_key(|&position| segments[position].start);
    order
}

/// Lets a segment reach into the one that follows it in the order of starts, so many places on: into its first sector, to its end,
/// or in between.
fn reach(rng: &mut Rng, segments: &mut [Segment], order: &[usize], at: usize, places: usize) {
    let next = segments[order[at + places]];
    let inside = rng.within(1, next.length);
    let inside = rng.one_of(&[1, inside, next.length]);
    let segment = &mut segments[order[at]];
    segment.length = next.start + inside - segment.start;
}

/// The long one clashes with each that it reaches, and these do not with each other.
fn covering(rng: &mut Rng, device: &Device) -> (Vec<Segment>, Known) {
    let mut segments = apart(rng, device, 4);
    let order = by_start(&segments);
    let places = rng.within(2, 3.max(order.len() as u64 / 2)) as usize;
    let at = rng.index(order.len() - places);
    reach(rng, &mut segments, &order, at, places);
    let lowest = order[at + 1..=at + places].iter().min().copied().unwrap_or_default();
    (segments, both(order[at], lowest))
}

/// The whole data range, at any position, often the first or the last.
fn covering_all(rng: &mut Rng, device: &Device) -> (Vec<Segment>, Known) {
    let mut segments = apart(rng, device, 2);
    let any = rng.index(segments.len());
    let position = rng.one_of(&[0, any, any, segments.len() - 1]);
    let (start, end) = (device.data_start(), device.data_end());
    segments[position] = Segment { kind: kind(rng), start, length: end - start };
    (segments, Known::Pair(0, position.max(1)))
}

/// The first shares a sector with the second and the second with the third, in the order of their starts, but not the first with the
/// third. Their positions are in any order.
fn chain(rng: &mut Rng, device: &Device) -> (Vec<Segment>, Known) {
    let mut segments = apart(rng, device, 3);
    let order = by_start(&segments);
    let at = rng.index(order.len() - 2);
    reach(rng, &mut segments, &order, at, 1);
    reach(rng, &mut segments, &order, at + 1, 1);
    // The one in the middle clashes with both.
    let lower_end = order[at].min(order[at + 2]);
    (segments, both(order[at + 1], lower_end))
}

/// Two segments of which the one that starts later is at the lower position, or at the higher one.
fn two_in_order(rng: &mut Rng, device: &Device, later_first: bool) -> (Vec<Segment>, Known) {
    let mut segments = apart(rng, device, 2);
    let order = by_start(&segments);
    let at = rng.index(order.len() - 1);
    let (start, later) = (order[at], order[at + 1]);
    reach(rng, &mut segments, &order, at, 1);
    if (later < start) != later_first {
        segments.swap(start, later);
    }
    (segments, both(start, later))
}

fn backwards(rng: &mut Rng, device: &Device) -> (Vec<Segment>, Known) {
    two_in_order(rng, device, true)
}

fn forwards(rng: &mut Rng, device: &Device) -> (Vec<Segment>, Known) {
    two_in_order(rng, device, false)
}

/// Each begins where the one before it ends; from the start of the data range, or to its end. In random order.
fn row(rng: &mut Rng, device: &Device) -> (Vec<Segment>, Known) {
    let any = rng.within(2, MAX_SEGMENTS as u64);
    let count = rng.one_of(&[2, 3, any, MAX_SEGMENTS as u64]);
    let longest = rng.one_of(&[1, 2, 5, 100]);
    let lengths: Vec<u64> = (0..count).map(|_| rng.within(1, longest)).collect();
    let total: u64 = lengths.iter().sum();
    let mut start = if rng.coin() { device.data_start() } else { device.data_end() - total };
    let mut segments: Vec<Segment> = lengths
        .into_iter()
        .map(|length| {
            start += length;
            Segment { kind: kind(rng), start: start - length, length }
        })
        .collect();
    rng.shuffle(&mut segments);
    (segments, Known::NoClash)
}

/// One of them reaches a sector too far, or begins a sector too early.
fn row_with_one(rng: &mut Rng, device: &Device) -> (Vec<Segment>, Known) {
    let (mut segments, _) = row(rng, device);
    let order = by_start(&segments);
    let at = rng.index(order.len() - 1);
    let (before, after) = (order[at], order[at + 1]);
    if rng.coin() {
        segments[before].length += 1;
    } else {
        segments[after].start -= 1;
        segments[after].length += 1;
    }
    (segments, both(before, after))
}

/// So many segments that begin within so many sectors.
fn within(rng: &mut Rng, device: &Device, count: u64, range: u64, longest: u64) -> Vec<Segment> {
    let all = range + longest;
    let (start, end) = (device.data_start(), device.data_end());
    let any = rng.within(start, end - all);
    let from = rng.one_of(&[start, any, end - all]);
    let mut segment = || Segment { kind: kind(rng), start: from + rng.below(range), length: rng.within(1, longest) };
    (0..count).map(|_| segment()).collect()
}

fn narrow(rng: &mut Rng, device: &Device) -> (Vec<Segment>, Known) {
    let (count, range, longest) = (rng.within(2, 12), rng.within(1, 40), rng.within(1, 8));
    (within(rng, device, count, range, longest), Known::Nothing)
}

/// So wide that few of them clash, so that the pair may have any positions.
fn wide(rng: &mut Rng, device: &Device) -> (Vec<Segment>, Known) {
    let any = rng.within(50, MAX_SEGMENTS as u64);
    let count = rng.one_of(&[any, MAX_SEGMENTS as u64]);
    let range = count * count * rng.within(1, 4);
    let longest = rng.within(1, 4);
    (within(rng, device, count, range, longest), Known::Nothing)
}
