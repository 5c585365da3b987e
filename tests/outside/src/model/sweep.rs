//! The pair that clashes, found by sorting. The benchmarks have it beside the library, since the definition's two nested loops
//! take the square of the segments; here it is held to them.

use super::layout::Device;
use super::record::{Record, Span, MAX_SEGMENTS};
use super::refusal::{Clash, Refusal};

/// Checks a record on a device. 4, 7, 8, 15, 17 to 19.
pub fn check(device: &Device, bytes: &[u8]) -> Result<(), Refusal> {
    device.check()?;
    let spans = Record::parse(bytes)?.places(device)?;
    match clash(spans.as_slice()) {
        Some(clash) => Err(Refusal::SegmentClash(clash)),
        None => Ok(()),
    }
}

/// The pair that clashes, of at most `MAX_SEGMENTS` spans in the order of their positions, none of which is empty.
///
/// In the order of their starts a span clashes with an earlier one exactly when it begins before the farthest end so far, and with a
/// later one exactly when the next begins before its own end. The lowest position that clashes with any other clashes with a later one,
/// since that other clashes too.
pub fn clash(spans: &[Span]) -> Option<Clash> {
    let mut order = [(0, 0_u16); MAX_SEGMENTS];
    let order = &mut order[..spans.len()];
    for ((position, span), place) in (0..).zip(spans).zip(&mut *order) {
        *place = (span.start, position);
    }
    order.sort_unstable_by_key(|place| place.0);
    let mut farthest = 0;
    let mut lowest = None;
    for (at, &(start, position)) in order.iter().enumerate() {
        let end = spans[usize::from(position)].end;
        let next = order.get(at + 1).map_or(u64::MAX, |next| next.0);
        if (start < farthest || next < end) && lowest.is_none_or(|lowest| position < lowest) {
            lowest = Some(position);
        }
        farthest = farthest.max(end);
    }
    let first = usize::from(lowest?);
    let later = (first + 1..spans.len()).find(|&later| spans[later].shares(&spans[first]));
    later.map(|second| Clash { first, second })
}

#[cfg(test)]
mod tests {
    use super::super::record;
    use super::*;
    use crate::rng::Rng;

    /// Sorted, the spans have neighbours that share a sector exactly when two of them do.
    fn neighbours(spans: &[Span]) -> bool {
        let mut sorted = spans.to_vec();
        sorted.sort_unstable();
        sorted.windows(2).any(|pair| pair[1].start < pair[0].end)
    }

    fn agree(spans: &[Span]) -> Option<Clash> {
        let defined = record::clash(spans);
        assert_eq!(clash(spans), defined);
        assert_eq!(neighbours(spans), defined.is_some());
        defined
    }

    /// Every list of up to five spans within five sectors.
    #[test]
    fn as_defined_in_a_narrow_range() {
        let all: Vec<Span> = (0..5).flat_map(|start| (start + 1..=5).map(move |end| Span { start, end })).collect();
        let (mut lists, mut clashes) = (0, 0);
        for count in 0..=5 {
            for number in 0..all.len().pow(count) {
                let digits = (0..count).map(|digit| number / all.len().pow(digit) % all.len());
                let spans: Vec<Span> = digits.map(|digit| all[digit]).collect();
                clashes += usize::from(agree(&spans).is_some());
                lists += 1;
            }
        }
        assert_eq!(lists, (15_usize.pow(6) - 1) / 14);
        // Those that share no sector: of each count, the ways to lay that many spans in a row, in every order.
        assert_eq!(lists - clashes, 1 + 15 + 2 * 35 + 6 * 28 + 24 * 9 + 120);
    }

    /// Many spans in a range that is now narrow and now wide.
    #[test]
    fn as_defined_for_many() {
        let mut rng = Rng::new(2);
        let mut clashes = 0;
        for _ in 0..4_000 {
            let count = rng.index(MAX_SEGMENTS + 1);
            let range = 1 << rng.within(1, 40);
            let longest = 1 << rng.below(12);
            let mut span = || {
                let start = rng.below(range);
                Span { start, end: start + rng.within(1, longest) }
            };
            let spans: Vec<Span> = (0..count).map(|_| span()).collect();
            clashes += u64::from(agree(&spans).is_some());
        }
        assert!((1_000..3_900).contains(&clashes), "{clashes}");
    }
}
