//! A copy that arrives in pieces, taken by whole parts. The benchmarks have it beside the library, since the definition goes byte by
//! byte; here it is held to that.

use std::ops::Range;

use super::crc::crc32_continued;
use super::layout::{AREA_OFFSET, BLOCK_OFFSET, COPY, SECTOR};
use super::receive::{used, State};
use super::refusal::Refusal;

/// The state after a piece. 1, and then none of it is taken.
pub fn with(mut state: State, piece: &[u8]) -> Result<State, Refusal> {
    let before = state.taken;
    let end = before.checked_add(piece.len()).filter(|&end| end <= COPY).ok_or(Refusal::SliceSize)?;
    let part = |range: &Range<usize>| {
        let (start, end) = (range.start.max(before), range.end.min(end));
        (start < end).then(|| (start, &piece[start - before..end - before]))
    };
    if let Some((start, bytes)) = part(&(BLOCK_OFFSET..BLOCK_OFFSET + SECTOR)) {
        state.block[start - BLOCK_OFFSET..][..bytes.len()].copy_from_slice(bytes);
    }
    for (area, start) in AREA_OFFSET.into_iter().enumerate() {
        if let Some((_, bytes)) = part(&(start..start + used(&state.block, area))) {
            state.sums[area] = crc32_continued(state.sums[area], bytes);
        }
    }
    state.taken = end;
    Ok(state)
}

#[cfg(test)]
mod tests {
    use super::*;
    use crate::rng::Rng;
    use crate::sample::pieces::{any_state, piece_length};

    /// Any state with any piece.
    #[test]
    fn as_defined() {
        let mut rng = Rng::new(4);
        let mut taken = 0;
        for _ in 0..4_000 {
            let state = any_state(&mut rng);
            let length = piece_length(&mut rng, state.taken);
            let piece = rng.bytes(length);
            let next = with(state, &piece);
            assert_eq!(next, state.with(&piece));
            taken += u64::from(next.is_ok());
        }
        assert!((1_000..3_500).contains(&taken), "{taken}");
    }
}
