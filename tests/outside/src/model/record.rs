//! The segment record.

use super::block::{u32_at, u64_at};
use super::layout::{Device, RECORD_LIMIT};
use super::refusal::{require, Clash, Refusal};

/// The kinds of heads: without and with a low water mark.
pub const PLAIN_KIND: u16 = 16;
pub const MARKED_KIND: u16 = 17;
/// Their lengths.
pub const HEAD_BYTES: usize = 8;
pub const MARKED_HEAD_BYTES: usize = 12;
pub const SEGMENT_BYTES: usize = 20;
/// The most segments with the shorter head, and so with any.
pub const MAX_SEGMENTS: usize = (RECORD_LIMIT - HEAD_BYTES) / SEGMENT_BYTES;

/// The head of a record: of kind 17 where it has a low water mark, else of kind 16.
#[derive(Clone, Copy, Debug, PartialEq, Eq)]
pub struct Head {
    pub block_size: u32,
    pub low_water: Option<u32>,
}

#[derive(Clone, Copy, Debug, PartialEq, Eq)]
pub struct Segment {
    pub kind: u16,
    pub start: u64,
    pub length: u64,
}

/// The sectors of a segment: its first, and the first after it.
#[derive(Clone, Copy, PartialEq, Eq, PartialOrd, Ord)]
pub struct Span {
    pub start: u64,
    pub end: u64,
}

impl Span {
    /// The two share a sector. Neither is empty.
    pub fn shares(&self, other: &Span) -> bool {
        self.start < other.end && other.start < self.end
    }
}

/// The spans of a record's segments.
pub struct Spans {
    spans: [Span; MAX_SEGMENTS],
    count: usize,
}

impl Spans {
    pub fn as_slice(&self) -> &[Span] {
        &self.spans[..self.count]
    }
}

/// The pair that clashes, of spans in the order of their positions, as it is defined: the lowest position that clashes with a later
/// one, and the lowest such later position.
pub fn clash(spans: &[Span]) -> Option<Clash> {
    for first in 0..spans.len() {
        for second in first + 1..spans.len() {
            if spans[first].shares(&spans[second]) {
                return Some(Clash { first, second });
            }
        }
    }
    None
}

pub fn is_block_size(block_size: u32) -> bool {
    (128..=2_097_152).contains(&block_size) && block_size.is_multiple_of(128)
}

pub fn is_kind(kind: u16) -> bool {
    (1..=4).contains(&kind)
}

impl Head {
    pub const fn plain(block_size: u32) -> Self {
        Head { block_size, low_water: None }
    }

    pub const fn marked(block_size: u32, low_water: u32) -> Self {
        Head { block_size, low_water: Some(low_water) }
    }

    pub fn kind(&self) -> u16 {
        self.low_water.map_or(PLAIN_KIND, |_| MARKED_KIND)
    }

    /// How many bytes it takes.
    pub fn length(&self) -> usize {
        self.low_water.map_or(HEAD_BYTES, |_| MARKED_HEAD_BYTES)
    }

    /// It has a mark that is not 0.
    pub fn has_mark(&self) -> bool {
        self.low_water.is_some_and(|mark| mark != 0)
    }

    /// How many segments a record with it can have.
    pub fn most_segments(&self) -> usize {
        (RECORD_LIMIT - self.length()) / SEGMENT_BYTES
    }

    /// 17. Any mark is allowed.
    pub fn check(&self) -> Result<(), Refusal> {
        require(is_block_size(self.block_size), Refusal::RecordForm)
    }

    /// The head that the bytes begin with. 17.
    pub fn read(bytes: &[u8]) -> Result<Self, Refusal> {
        require(bytes.len() >= HEAD_BYTES, Refusal::RecordForm)?;
        let block_size = u32_at(bytes, 4);
        let head = match (usize::from(u16_at(bytes, 0)), u16_at(bytes, 2)) {
            (HEAD_BYTES, PLAIN_KIND) => Head::plain(block_size),
            (MARKED_HEAD_BYTES, MARKED_KIND) if bytes.len() >= MARKED_HEAD_BYTES => {
                Head::marked(block_size, u32_at(bytes, 8))
            }
            _ => return Err(Refusal::RecordForm),
        };
        head.check()?;
        Ok(head)
    }

    /// Writes the item to the start of a buffer that has room for it, without a test.
    pub fn put(&self, buffer: &mut [u8]) {
        buffer[..2].copy_from_slice(&(self.length() as u16).to_le_bytes());
        buffer[2..4].copy_from_slice(&self.kind().to_le_bytes());
        buffer[4..8].copy_from_slice(&self.block_size.to_le_bytes());
        if let Some(low_water) = self.low_water {
            buffer[8..12].copy_from_slice(&low_water.to_le_bytes());
        }
    }

    pub fn item(&self) -> Vec<u8> {
        let mut item = vec![0; self.length()];
        self.put(&mut item);
        item
    }
}

impl Segment {
    pub fn item(&self) -> [u8; SEGMENT_BYTES] {
        let mut item = [0; SEGMENT_BYTES];
        item[..2].copy_from_slice(&(SEGMENT_BYTES as u16).to_le_bytes());
        item[2..4].copy_from_slice(&self.kind.to_le_bytes());
        item[4..12].copy_from_slice(&self.start.to_le_bytes());
        item[12..].copy_from_slice(&self.length.to_le_bytes());
        item
    }

    fn read(item: &[u8]) -> Self {
        Segment { kind: u16_at(item, 2), start: u64_at(item, 4), length: u64_at(item, 12) }
    }

    /// The segment's span, where it is not empty and lies wholly in the data range.
    fn span(&self, data: &Span) -> Option<Span> {
        let end = self.start.checked_add(self.length)?;
        let inside = data.start <= self.start && end <= data.end;
        (self.length > 0 && inside).then_some(Span { start: self.start, end })
    }
}

/// The length of a record. 15.
pub fn check_length(bytes: &[u8]) -> Result<(), Refusal> {
    require((1..=RECORD_LIMIT).contains(&bytes.len()), Refusal::RecordLength)
}

/// A record that was checked for its form.
#[derive(Clone, Copy)]
pub struct Record<'a> {
    pub head: Head,
    /// The bytes after the head.
    items: &'a [u8],
}

impl<'a> Record<'a> {
    /// 15, 17.
    pub fn parse(bytes: &'a [u8]) -> Result<Self, Refusal> {
        check_length(bytes)?;
        let head = Head::read(bytes)?;
        let items = &bytes[head.length()..];
        let is_segment = |item: &[u8]| usize::from(u16_at(item, 0)) == SEGMENT_BYTES && is_kind(u16_at(item, 2));
        let segments = items.len().is_multiple_of(SEGMENT_BYTES) && items.chunks_exact(SEGMENT_BYTES).all(is_segment);
        require(segments, Refusal::RecordForm)?;
        Ok(Record { head, items })
    }

    /// The same segments after another head.
    pub fn with_head(self, head: Head) -> Self {
        Record { head, ..self }
    }

    /// How many bytes it takes.
    pub fn length(&self) -> usize {
        self.head.length() + self.items.len()
    }

    /// Writes the record to the start of a buffer that has room for it.
    pub fn put(&self, buffer: &mut [u8]) {
        self.head.put(buffer);
        buffer[self.head.length()..self.length()].copy_from_slice(self.items);
    }

    pub fn count(&self) -> usize {
        self.items.len() / SEGMENT_BYTES
    }

    pub fn segments(&self) -> impl Iterator<Item = Segment> + 'a {
        self.segments_from(0)
    }

    /// The segments from a position on, which is at most their number.
    pub fn segments_from(&self, position: usize) -> impl Iterator<Item = Segment> + 'a {
        self.items[position * SEGMENT_BYTES..].chunks_exact(SEGMENT_BYTES).map(Segment::read)
    }

    pub fn segment(&self, position: u64) -> Option<Segment> {
        let position = usize::try_from(position).ok().filter(|&p| p < self.count())?;
        self.segments_from(position).next()
    }

    /// 18; otherwise the segments' spans in the order of their positions.
    pub fn places(&self, device: &Device) -> Result<Spans, Refusal> {
        let data = Span { start: device.data_start(), end: device.data_end() };
        let mut spans = [Span { start: 0, end: 0 }; MAX_SEGMENTS];
        for (segment, span) in self.segments().zip(&mut spans) {
            *span = segment.span(&data).ok_or(Refusal::SegmentPlace)?;
        }
        Ok(Spans { spans, count: self.count() })
    }

    /// 18, 19; otherwise the segments' spans, ascending. Whether two clash is seen in the sorted spans; which two, in those that are in the
    /// order of their positions.
    pub fn spans(&self, device: &Device) -> Result<Spans, Refusal> {
        let mut spans = self.places(device)?;
        let sorted = &mut spans.spans[..spans.count];
        sorted.sort_unstable();
        if sorted.windows(2).any(|pair| pair[1].start < pair[0].end) {
            let clash = clash(self.places(device)?.as_slice()).expect("two segments share a sector");
            return Err(Refusal::SegmentClash(clash));
        }
        Ok(spans)
    }
}

/// A record on a device whose numbers are accepted. 15, 17 to 19.
pub fn check_record<'a>(device: &Device, bytes: &'a [u8]) -> Result<(Record<'a>, Spans), Refusal> {
    let record = Record::parse(bytes)?;
    let spans = record.spans(device)?;
    Ok((record, spans))
}

/// Device numbers, then the record. 4, 7, 8, 15, 17 to 19.
pub fn check<'a>(device: &Device, bytes: &'a [u8]) -> Result<(Record<'a>, Spans), Refusal> {
    device.check()?;
    check_record(device, bytes)
}

fn u16_at(bytes: &[u8], at: usize) -> u16 {
    u16::from_le_bytes([bytes[at], bytes[at + 1]])
}
