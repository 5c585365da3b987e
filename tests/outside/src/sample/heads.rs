//! Heads that are none: each makes a record that is refused with 17, whose segments are right.

use super::records::{block_size, break_block_size, encode, head, low_water, put_u16, segments};
use crate::model::layout::Device;
use crate::model::record::{Head, Segment, HEAD_BYTES, MARKED_HEAD_BYTES, MARKED_KIND, PLAIN_KIND, SEGMENT_BYTES};
use crate::rng::Rng;

/// The bytes that these segments have with such a head, or with more than one.
pub type Shape = fn(&mut Rng, &[Segment]) -> Vec<u8>;

pub const SHAPES: &[(&str, Shape)] = &[
    ("no head: kind 17 and length 8, with a mark", |rng, segments| {
        let mut record = marked(rng, segments);
        put_u16(&mut record, 0, HEAD_BYTES as u16);
        record
    }),
    ("no head: kind 17 and length 8, without a mark", |rng, segments| {
        let mut record = plain(rng, segments);
        put_u16(&mut record, 2, MARKED_KIND);
        record
    }),
    ("no head: kind 17 and length 12, without a mark", |rng, segments| {
        let mut record = marked(rng, segments);
        record.drain(HEAD_BYTES..MARKED_HEAD_BYTES);
        record
    }),
    ("no head: kind 16 and length 12, with a mark", |rng, segments| {
        let mut record = marked(rng, segments);
        put_u16(&mut record, 2, PLAIN_KIND);
        record
    }),
    ("no head: kind 16 and length 12, without a mark", |rng, segments| {
        let mut record = plain(rng, segments);
        put_u16(&mut record, 0, MARKED_HEAD_BYTES as u16);
        record
    }),
    ("no head: kind 16 and length 8, with a mark", |rng, segments| {
        let mut record = plain(rng, segments);
        record.splice(HEAD_BYTES..HEAD_BYTES, low_water(rng).to_le_bytes());
        record
    }),
    ("no head: a kind that is none", |rng, segments| {
        let mut record = encode(head(rng), segments);
        put_u16(&mut record, 2, rng.one_of(&[0, 1, 4, 15, 18, 33, 16 + 256, 17 + 256, u16::MAX]));
        record
    }),
    ("no head: kind 18 with 28 bytes", |rng, segments| {
        let mut record = marked(rng, segments);
        record.splice(MARKED_HEAD_BYTES..MARKED_HEAD_BYTES, rng.bytes(16));
        put_u16(&mut record, 0, 28);
        put_u16(&mut record, 2, 18);
        record
    }),
    ("no head: a length that is none", |rng, segments| {
        let mut record = encode(head(rng), segments);
        put_u16(&mut record, 0, rng.one_of(&[0, 4, 7, 9, 11, 13, 20, 8 + 256, 12 + 256, u16::MAX]));
        record
    }),
    ("no head: a length of 20, filled up", |rng, segments| {
        let mut record = encode(head(rng), segments);
        let length = record.len() - SEGMENT_BYTES * segments.len();
        record.splice(length..length, vec![0; SEGMENT_BYTES - length]);
        put_u16(&mut record, 0, SEGMENT_BYTES as u16);
        record
    }),
    ("no head: a block size that is not allowed, with a mark", |rng, segments| {
        let size = break_block_size(rng);
        encode(Head::marked(size, low_water(rng)), segments)
    }),
    ("no head: a mark that is cut off", |rng, _| {
        let mut record = marked(rng, &[]);
        record.truncate(rng.within(8, 11) as usize);
        record
    }),
    ("no head: none before the segments", |rng, segments| {
        let mut record = encode(head(rng), segments);
        record.drain(..record.len() - SEGMENT_BYTES * segments.len());
        // Nothing at all would be 15.
        record.extend(Segment { kind: 1, start: 1 << 20, length: 1 }.item());
        record
    }),
    ("two heads: one right after the other", |rng, segments| [head(rng).item(), encode(head(rng), segments)].concat()),
    ("two heads: one behind all segments", |rng, segments| [encode(head(rng), segments), head(rng).item()].concat()),
    ("two heads: one between the segments", |rng, segments| {
        let mut record = encode(head(rng), segments);
        let after = rng.index(segments.len() + 1) * SEGMENT_BYTES;
        let at = record.len() - after;
        record.splice(at..at, head(rng).item());
        record
    }),
    ("two heads: one in a segment's place, with its length", |rng, segments| {
        let mut item = head(rng).item();
        item.resize(SEGMENT_BYTES, 0);
        put_u16(&mut item, 0, SEGMENT_BYTES as u16);
        [encode(head(rng), segments), item].concat()
    }),
    ("two heads: a segment with the kind of one", |rng, segments| {
        let mut segments = segments.to_vec();
        let kind = rng.one_of(&[PLAIN_KIND, MARKED_KIND]);
        match segments.len() {
            0 => segments.push(Segment { kind, start: 1 << 20, length: 1 }),
            count => segments[rng.index(count)].kind = kind,
        }
        encode(head(rng), &segments)
    }),
];

fn plain(rng: &mut Rng, segments: &[Segment]) -> Vec<u8> {
    encode(Head::plain(block_size(rng)), segments)
}

fn marked(rng: &mut Rng, segments: &[Segment]) -> Vec<u8> {
    let size = block_size(rng);
    encode(Head::marked(size, low_water(rng)), segments)
}

/// A record of one of the shapes, with so few segments that its length is allowed.
pub fn of_shape(rng: &mut Rng, device: &Device, shape: Shape) -> Vec<u8> {
    let any = rng.index(400);
    let count = rng.one_of(&[0, 1, 2, 3, any]);
    let segments = segments(rng, device, count);
    shape(rng, &segments)
}

/// A record of any of the shapes.
pub fn malformed(rng: &mut Rng, device: &Device) -> Vec<u8> {
    let (_, shape) = SHAPES[rng.index(SHAPES.len())];
    of_shape(rng, device, shape)
}
