//! Free room: runs, allocation and release.

use super::layout::Device;
use super::record::{check, is_kind, Record, Segment, Span, SEGMENT_BYTES};
use super::refusal::{require, Refusal};

#[derive(Clone, Copy, Debug, PartialEq, Eq)]
pub struct Run {
    pub start: u64,
    pub length: u64,
}

/// The longest runs of free sectors between these spans, ascending. The spans ascend and share no sector.
pub fn free_runs<'a>(device: &Device, spans: &'a [Span]) -> impl Iterator<Item = Run> + 'a {
    let data_end = device.data_end();
    let ends = spans.iter().map(|span| span.start).chain([data_end]);
    let starts = [device.data_start()].into_iter().chain(spans.iter().map(|span| span.end));
    let gaps = starts.zip(ends).filter(|(start, end)| start < end);
    gaps.map(|(start, end)| Run { start, length: end - start })
}

/// Data sectors in no segment.
pub fn free_total(device: &Device, record: &Record) -> u64 {
    let allocated: u64 = record.segments().map(|segment| segment.length).sum();
    device.data_end() - device.data_start() - allocated
}

/// The segment that an allocation appends. 4, 7, 8, 15, 17 to 19, then 17, 18, 21, 20.
pub fn allocate(device: &Device, bytes: &[u8], kind: u16, length: u64) -> Result<Segment, Refusal> {
    let (record, spans) = check(device, bytes)?;
    require(is_kind(kind), Refusal::RecordForm)?;
    require(length > 0, Refusal::SegmentPlace)?;
    require(record.count() < record.head.most_segments(), Refusal::RecordFull)?;
    let mut runs = free_runs(device, spans.as_slice());
    let run = runs.find(|run| run.length >= length).ok_or(Refusal::NoRoom)?;
    Ok(Segment { kind, start: run.start, length })
}

/// Where the segment at a position begins in the record. 4, 7, 8, 15, 17 to 19, then 22.
pub fn release(device: &Device, bytes: &[u8], position: u64) -> Result<usize, Refusal> {
    let (record, _) = check(device, bytes)?;
    require(position < record.count() as u64, Refusal::NoSegment)?;
    Ok(record.head.length() + position as usize * SEGMENT_BYTES)
}
