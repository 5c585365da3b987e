//! Segment records.

use super::heads::malformed;
use super::numbers::spread;
use crate::model::layout::Device;
use crate::model::record::{Head, Segment, HEAD_BYTES, MARKED_HEAD_BYTES, MARKED_KIND, MAX_SEGMENTS, SEGMENT_BYTES};
use crate::rng::Rng;

pub fn block_size(rng: &mut Rng) -> u32 {
    spread(rng, 1, 16_384) as u32 * 128
}

pub fn break_block_size(rng: &mut Rng) -> u32 {
    let random = rng.next() as u32 | 1;
    let between = block_size(rng) + 64;
    let multiple = rng.within(16_385, 33_554_431) as u32 * 128;
    rng.one_of(&[0, 64, 127, 129, 192, 2_097_151, 2_097_153, 2_097_280, random, between, multiple])
}

/// A low water mark: any number, often 0; at times one of which a half is 0.
pub fn low_water(rng: &mut Rng) -> u32 {
    let random = rng.next() as u32;
    let any = spread(rng, 0, u64::from(u32::MAX)) as u32;
    rng.one_of(&[0, 0, 0, 1, u32::MAX, random >> 16, random << 16, random, any])
}

/// A head that is allowed, of kind 17 in one case of three.
pub fn head(rng: &mut Rng) -> Head {
    let size = block_size(rng);
    if rng.once_in(3) {
        Head::marked(size, low_water(rng))
    } else {
        Head::plain(size)
    }
}

/// How many bytes a record's head takes, by its kind, whatever else is wrong with the record.
pub fn head_length(record: &[u8]) -> usize {
    match record.get(2..4) {
        Some(kind) if kind == MARKED_KIND.to_le_bytes() => MARKED_HEAD_BYTES,
        _ => HEAD_BYTES,
    }
}

/// How many segments a record of that length has, by its head's kind.
pub fn segments_in(record: &[u8]) -> usize {
    record.len().saturating_sub(head_length(record)) / SEGMENT_BYTES
}

/// How many segments: few, the most, or any number.
pub fn segment_count(rng: &mut Rng) -> usize {
    match rng.below(8) {
        0 => 0,
        1 => MAX_SEGMENTS,
        2 => MAX_SEGMENTS - 1,
        3 => rng.within(20, 30) as usize,
        4 => rng.index(MAX_SEGMENTS + 1),
        _ => rng.index(8),
    }
}

/// At most `count` segments that share no sector, in random order.
pub fn segments(rng: &mut Rng, device: &Device, count: usize) -> Vec<Segment> {
    let (start, end) = (device.data_start(), device.data_end());
    let mut spans = match rng.below(4) {
        0 => packed(rng, start, count),
        1 => packed_to_end(rng, end, count),
        _ => scattered(rng, start, end, count),
    };
    if rng.once_in(4) {
        close_gaps(rng, &mut spans, start, end);
    }
    let segment = |(start, end): (u64, u64)| (start, end - start);
    let mut segments: Vec<Segment> = spans
        .into_iter()
        .map(segment)
        .map(|(start, length)| Segment { kind: rng.within(1, 4) as u16, start, length })
        .collect();
    rng.shuffle(&mut segments);
    segments
}

/// As many segments as a record can have, in random order.
pub fn all_segments(rng: &mut Rng, device: &Device) -> Vec<Segment> {
    loop {
        let segments = segments(rng, device, MAX_SEGMENTS);
        // Segments that fell together are left out.
        if segments.len() == MAX_SEGMENTS {
            return segments;
        }
    }
}

/// Short spans with short gaps from the start of the data range.
fn packed(rng: &mut Rng, start: u64, count: usize) -> Vec<(u64, u64)> {
    let mut at = start;
    let mut next = || {
        let from = at + rng.below(4);
        at = from + rng.within(1, 5);
        (from, at)
    };
    (0..count).map(|_| next()).collect()
}

/// The same, to the end of the data range.
fn packed_to_end(rng: &mut Rng, end: u64, count: usize) -> Vec<(u64, u64)> {
    let mut spans: Vec<_> = packed(rng, 0, count);
    spans.reverse();
    spans.into_iter().map(|(from, to)| (end - to, end - from)).collect()
}

/// Spans between random points, the ends of the data range among them at times.
fn scattered(rng: &mut Rng, start: u64, end: u64, count: usize) -> Vec<(u64, u64)> {
    let mut points: Vec<u64> = (0..2 * count).map(|_| rng.within(start, end)).collect();
    if count > 0 && rng.coin() {
        points[0] = start;
    }
    if count > 0 && rng.coin() {
        points[1] = end;
    }
    points.sort_unstable();
    points.dedup();
    points.chunks_exact(2).map(|pair| (pair[0], pair[1])).collect()
}

/// Lets some spans, or all, end where the next begins.
fn close_gaps(rng: &mut Rng, spans: &mut [(u64, u64)], start: u64, end: u64) {
    let all = rng.coin();
    if all {
        if let Some(first) = spans.first_mut() {
            first.0 = start;
        }
        if let Some(last) = spans.last_mut() {
            last.1 = end;
        }
    }
    for i in 1..spans.len() {
        if all || rng.coin() {
            spans[i - 1].1 = spans[i].0;
        }
    }
}

pub fn encode(head: Head, segments: &[Segment]) -> Vec<u8> {
    let mut record = head.item();
    for segment in segments {
        record.extend(segment.item());
    }
    record
}

/// An accepted record with at most `count` segments.
pub fn record(rng: &mut Rng, device: &Device, count: usize) -> Vec<u8> {
    let segments = segments(rng, device, count);
    encode(head(rng), &segments)
}

/// An accepted record, or one with faults.
pub fn any_record(rng: &mut Rng, device: &Device) -> Vec<u8> {
    if rng.once_in(16) {
        return malformed(rng, device);
    }
    let count = segment_count(rng);
    let mut record = record(rng, device, count);
    if rng.coin() {
        damage(rng, device, &mut record);
        while rng.once_in(4) {
            damage(rng, device, &mut record);
        }
    }
    record
}

/// Brings one fault into a record. Some faults need a segment.
pub fn damage(rng: &mut Rng, device: &Device, record: &mut Vec<u8>) {
    let segments = segments_in(record);
    match rng.below(12) {
        0 => record.truncate(rng.index(record.len() + 1)),
        1 => damage_length(rng, record),
        2 => record.extend(rng.bytes(20)),
        3 if record.len() >= HEAD_BYTES => damage_head(rng, record),
        4 if !record.is_empty() => {
            let at = rng.index(record.len());
            record[at] ^= 1 << rng.below(8);
        }
        5 | 6 if segments > 0 => damage_item(rng, record, segments),
        7 | 8 if segments > 0 => damage_place(rng, device, record, segments),
        _ if segments > 1 => damage_pair(rng, record, segments),
        _ => damage_length(rng, record),
    }
}

fn damage_length(rng: &mut Rng, record: &mut Vec<u8>) {
    let random = rng.index(9_000);
    let lengths = [0, 1, 7, 8, 9, 11, 12, 13, 27, 29, 31, 33, 8_188, 8_192, 8_193, 8_208, 8_212, 16_384, random];
    let length = rng.one_of(&lengths);
    record.resize(length, 0);
}

fn damage_head(rng: &mut Rng, record: &mut [u8]) {
    match rng.below(4) {
        0 => record[0] = rng.one_of(&[0, 7, 8, 9, 11, 12, 13, 20]),
        1 => record[1] = rng.one_of(&[1, 8, 0xff]),
        2 => put_u16(record, 2, rng.one_of(&[0, 1, 15, 16, 17, 18, 16 + 256, 17 + 256])),
        _ => {
            let size = break_block_size(rng);
            record[4..8].copy_from_slice(&size.to_le_bytes());
        }
    }
}

/// Where one of the segments begins.
fn item(rng: &mut Rng, record: &[u8], segments: usize) -> usize {
    let position = rng.index(segments);
    head_length(record) + rng.one_of(&[0, position, segments - 1]) * SEGMENT_BYTES
}

fn damage_item(rng: &mut Rng, record: &mut [u8], segments: usize) {
    let at = item(rng, record, segments);
    if rng.coin() {
        put_u16(record, at, rng.one_of(&[0, 8, 12, 19, 21, 40, 20 + 256]));
    } else {
        put_u16(record, at + 2, rng.one_of(&[0, 5, 16, 17, 33, 36, 1 + 256, u16::MAX]));
    }
}

/// Makes a segment empty, or lets it leave the data range, often by one sector.
fn damage_place(rng: &mut Rng, device: &Device, record: &mut [u8], segments: usize) {
    let at = item(rng, record, segments);
    // The record may be one of another device, or the device's numbers may not be accepted.
    let start = 8 + u64::from(device.metadata) + u64::from(device.reserved);
    let end = device.sectors.saturating_sub(start);
    let (from, length) = match rng.below(9) {
        0 => (start, 0),
        1 => (start.wrapping_sub(1), 1),
        2 => (start.wrapping_sub(1), 2),
        3 => (end, 1),
        4 => (end.wrapping_sub(1), 2),
        5 => (start, (end - start.min(end)).wrapping_add(1)),
        6 => (u64::MAX, rng.within(1, 3)),
        7 => (end.wrapping_sub(1), u64::MAX - rng.below(3)),
        _ => (rng.next(), rng.next()),
    };
    record[at + 4..at + 12].copy_from_slice(&from.to_le_bytes());
    record[at + 12..at + 20].copy_from_slice(&length.to_le_bytes());
}

/// Lets two segments share one sector, or all.
fn damage_pair(rng: &mut Rng, record: &mut [u8], segments: usize) {
    let (from, to) = (item(rng, record, segments), item(rng, record, segments));
    if from == to {
        return;
    }
    let start = u64_of(record, from + 4);
    let length = u64_of(record, from + 12);
    let last = start.wrapping_add(length).wrapping_sub(1);
    let (start, length) = match rng.below(4) {
        0 => (start, length),
        1 => (last, 1),
        2 => (start, 1),
        _ => (start.wrapping_sub(1), 2),
    };
    record[to + 4..to + 12].copy_from_slice(&start.to_le_bytes());
    record[to + 12..to + 20].copy_from_slice(&length.to_le_bytes());
}

fn u64_of(record: &[u8], at: usize) -> u64 {
    crate::model::block::u64_at(record, at)
}

pub fn put_u16(record: &mut [u8], at: usize, number: u16) {
    record[at..at + 2].copy_from_slice(&number.to_le_bytes());
}
