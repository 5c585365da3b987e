//! The head of a record: moved up to kind 17, moved back to kind 16, and given another low water mark.

use super::layout::Device;
use super::record::{check, Head, Record};
use super::refusal::{require, Refusal};

/// The record with a head of kind 17; one that has none gets the mark 0. 4, 7, 8, 15, 17 to 19.
pub fn up<'a>(device: &Device, bytes: &'a [u8]) -> Result<Record<'a>, Refusal> {
    let (record, _) = check(device, bytes)?;
    let Head { block_size, low_water } = record.head;
    Ok(record.with_head(Head::marked(block_size, low_water.unwrap_or(0))))
}

/// The record with a head of kind 16. 4, 7, 8, 15, 17 to 19, then 24 where a mark would be lost.
pub fn back<'a>(device: &Device, bytes: &'a [u8]) -> Result<Record<'a>, Refusal> {
    let (record, _) = check(device, bytes)?;
    require(!record.head.has_mark(), Refusal::HeadMove)?;
    Ok(record.with_head(Head::plain(record.head.block_size)))
}

/// The record with this mark. 4, 7, 8, 15, 17 to 19, then 17 where its head has none.
pub fn mark<'a>(device: &Device, bytes: &'a [u8], mark: u32) -> Result<Record<'a>, Refusal> {
    let (record, _) = check(device, bytes)?;
    let Head { block_size, low_water } = record.head;
    require(low_water.is_some(), Refusal::RecordForm)?;
    Ok(record.with_head(Head::marked(block_size, mark)))
}
